SELECT max(nums.n), inc(1) FROM nums
