SELECT nums.n, inc(nums.n) FROM nums
