CREATE FUNCTION f() RETURNS bigint LANGUAGE plpgsql AS $$
DECLARE
  a bigint;
  b bigint;
BEGIN
  SELECT 1 INTO STRICT a FROM t WHERE t.k = 2;
  RETURN a;
END;
$$
