CREATE TABLE calls (n bigint);
