SELECT nums.n FROM nums LIMIT inc(1)
