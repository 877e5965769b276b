SELECT inc(nums.n) FROM nums WHERE nums.n > 3 ORDER BY nums.n DESC LIMIT 1
