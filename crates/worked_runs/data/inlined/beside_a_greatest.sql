SELECT (SELECT max(nums.n) FROM nums), inc(1)
