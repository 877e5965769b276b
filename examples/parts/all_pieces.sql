-- The pieces within one $1, with their numbers.
WITH RECURSIVE within(piece, number) AS (
  SELECT CAST($1 AS text), CAST(1 AS bigint)
  UNION ALL
  SELECT part.piece, within.number * part.number
  FROM within, part
  WHERE part.whole = within.piece
)
SELECT within.piece, within.number
FROM within
ORDER BY within.number, within.piece;
