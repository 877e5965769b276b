CREATE FUNCTION f() RETURNS bigint LANGUAGE plpgsql AS $$
DECLARE
  a bigint;
  b bigint;
BEGIN
  a := (SELECT 1 INTO a);
  RETURN a;
END;
$$
