SELECT nums.n FROM nums WHERE collatz(nums.n) = 8
