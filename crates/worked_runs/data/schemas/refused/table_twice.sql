CREATE TABLE t (k bigint); CREATE TABLE t (v text);
