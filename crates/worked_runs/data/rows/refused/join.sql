SELECT t.k
  FROM t JOIN t AS u ON t.k = u.k
