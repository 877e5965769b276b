SELECT CAST($1 AS bigint) / -1, CAST(NULL AS text)
