CREATE FUNCTION f() RETURNS bigint LANGUAGE plpgsql AS $$
DECLARE
  a bigint;
  b bigint;
BEGIN
  SELECT t.k INTO a FROM t GROUP BY t.k;
  RETURN a;
END;
$$
