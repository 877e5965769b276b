CREATE TABLE u (k bigint NOT NULL); CREATE TABLE t (v text);
