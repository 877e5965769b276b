CREATE TABLE t (k bigint, v text); CREATE TABLE calls (id bigint, n bigint);
