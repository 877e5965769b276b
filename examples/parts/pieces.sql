-- How many pieces $2 there are in one $1.
WITH RECURSIVE within(piece, number) AS (
  SELECT CAST($1 AS text), CAST(1 AS bigint)
  UNION ALL
  SELECT part.piece, within.number * part.number
  FROM within, part
  WHERE part.whole = within.piece
)
SELECT CAST(sum(within.number) AS bigint), CAST(NULL AS text)
FROM within
WHERE within.piece = CAST($2 AS text);
