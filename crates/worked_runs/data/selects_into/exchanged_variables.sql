CREATE FUNCTION f() RETURNS bigint LANGUAGE plpgsql AS $$
DECLARE
  a bigint := 1;
  b bigint := 2;
BEGIN
  SELECT b, a INTO a, b;
  RETURN a * 10 + b;
END;
$$
