CREATE FUNCTION f() RETURNS bigint LANGUAGE plpgsql AS $$
DECLARE
  a bigint := 5;
BEGIN
  SELECT 1 INTO a FROM t WHERE t.k = 9;
  RETURN a;
END;
$$
