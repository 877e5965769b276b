CREATE FUNCTION f() RETURNS bigint LANGUAGE plpgsql AS $$
DECLARE
  away_x bigint;
BEGIN
  SELECT 1 INTO away_x;
  RETURN 1;
END;
$$
