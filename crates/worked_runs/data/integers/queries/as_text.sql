SELECT CAST(t.i AS text), CAST(NULL AS text) FROM t WHERE t.i = 1
