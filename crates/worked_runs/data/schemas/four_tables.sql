CREATE TABLE t (k bigint, v text);
CREATE TABLE u (v bigint);
CREATE TABLE w (z bigint);
CREATE TABLE n (i int4 NOT NULL, b int8);
