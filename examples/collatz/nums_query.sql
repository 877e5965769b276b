SELECT n, collatz(n) FROM nums
