CREATE TABLE calls (id text, n bigint);
