CREATE TABLE x1 (x2 bigint);
