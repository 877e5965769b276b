CREATE FUNCTION f(q bigint) RETURNS bigint LANGUAGE plpgsql AS $$
DECLARE
  a bigint;
  b bigint;
BEGIN
  SELECT max(q) INTO a FROM t;
  RETURN a;
END;
$$
