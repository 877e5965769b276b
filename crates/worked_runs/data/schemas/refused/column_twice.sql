CREATE TABLE t (k bigint, k text);
