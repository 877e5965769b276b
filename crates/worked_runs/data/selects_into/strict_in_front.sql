CREATE FUNCTION f() RETURNS bigint LANGUAGE plpgsql AS $$
DECLARE
  a bigint;
  b bigint;
BEGIN
  SELECT INTO STRICT a count(*) FROM t;
  RETURN a;
END;
$$
