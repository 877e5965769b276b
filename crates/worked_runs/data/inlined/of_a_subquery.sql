SELECT nums.n, inc((SELECT count(*) FROM nums AS m WHERE m.n < nums.n)) FROM nums
