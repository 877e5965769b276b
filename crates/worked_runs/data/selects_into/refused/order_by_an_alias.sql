CREATE FUNCTION f() RETURNS bigint LANGUAGE plpgsql AS $$
DECLARE
  a bigint;
  b bigint;
BEGIN
  SELECT t.k AS z INTO a FROM t ORDER BY z LIMIT 1;
  RETURN a;
END;
$$
