SELECT COALESCE(inc(nums.n), 0) FROM nums
