CREATE TABLE calls (id bigint, n bigint, m bigint);
