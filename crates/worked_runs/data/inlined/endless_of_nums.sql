SELECT endless(nums.n) FROM nums
