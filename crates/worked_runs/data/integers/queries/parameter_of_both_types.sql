SELECT $1::int + $1::bigint, CAST(NULL AS text)
