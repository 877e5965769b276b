SELECT inc($1::bigint)
