SELECT inc(nums.n) FROM nums WHERE 1 / 0 > 0
