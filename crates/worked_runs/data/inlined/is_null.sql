SELECT inc(nums.n) IS NULL FROM nums
