SELECT inc(zz)
