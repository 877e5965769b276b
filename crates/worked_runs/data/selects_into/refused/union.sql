CREATE FUNCTION f() RETURNS bigint LANGUAGE plpgsql AS $$
DECLARE
  a bigint;
  b bigint;
BEGIN
  SELECT t.k INTO a FROM t UNION ALL SELECT 5;
  RETURN a;
END;
$$
