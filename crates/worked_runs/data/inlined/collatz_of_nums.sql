SELECT nums.n, collatz(nums.n) + 1 FROM nums ORDER BY nums.n
