SELECT inc(1)
