CREATE FUNCTION f() RETURNS bigint LANGUAGE plpgsql AS $$
DECLARE
  a bigint;
  b bigint NOT NULL := 1;
BEGIN
  SELECT 7, NULL INTO a, b;
  RETURN a;
END;
$$
