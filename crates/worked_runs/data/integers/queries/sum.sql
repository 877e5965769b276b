SELECT sum(t.i), CAST(NULL AS text) FROM t
