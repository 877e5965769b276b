SELECT $1::int, CAST(NULL AS text)
