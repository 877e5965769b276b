SELECT nums.n FROM nums WHERE inc(nums.n) = 7
