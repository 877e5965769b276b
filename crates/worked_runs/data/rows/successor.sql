SELECT $1::bigint + 1
