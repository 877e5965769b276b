CREATE FUNCTION f() RETURNS bigint LANGUAGE plpgsql AS $$
DECLARE
  a bigint;
  b bigint;
BEGIN
  EXECUTE 'x' INTO a;
  RETURN a;
END;
$$
