SELECT t.k, t.v FROM t
