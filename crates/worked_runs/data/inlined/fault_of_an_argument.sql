SELECT inc(1 / 0)
