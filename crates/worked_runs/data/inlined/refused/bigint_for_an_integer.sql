SELECT f(nums.n) FROM nums
