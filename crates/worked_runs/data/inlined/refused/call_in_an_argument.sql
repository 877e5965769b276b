SELECT inc(inc(1))
