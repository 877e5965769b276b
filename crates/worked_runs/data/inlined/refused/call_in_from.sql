SELECT t.m FROM (SELECT inc(1)) AS t(m)
