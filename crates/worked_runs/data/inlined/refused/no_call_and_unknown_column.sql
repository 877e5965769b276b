SELECT nums.m FROM nums
