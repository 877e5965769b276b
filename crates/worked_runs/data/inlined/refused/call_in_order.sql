SELECT nums.n FROM nums ORDER BY inc(nums.n)
