SELECT nums.n FROM nums
