SELECT inc(nums.n) FROM nums LIMIT 0
