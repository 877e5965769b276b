CREATE TABLE away_t (k bigint);
