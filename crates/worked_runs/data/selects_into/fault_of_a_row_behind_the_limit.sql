CREATE FUNCTION f() RETURNS bigint LANGUAGE plpgsql AS $$
DECLARE
  a bigint;
  b bigint;
BEGIN
  SELECT 1 / (t.k - 2) INTO a FROM t LIMIT 1;
  RETURN a;
END;
$$
