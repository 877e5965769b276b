SELECT inc(nums.n) / 0 FROM nums
