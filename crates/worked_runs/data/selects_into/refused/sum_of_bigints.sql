CREATE FUNCTION f() RETURNS bigint LANGUAGE plpgsql AS $$
DECLARE
  a bigint;
  b bigint;
BEGIN
  SELECT sum(t.k) INTO a FROM t;
  RETURN a;
END;
$$
