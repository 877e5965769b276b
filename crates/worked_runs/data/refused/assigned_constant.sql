CREATE FUNCTION f() RETURNS bigint LANGUAGE plpgsql AS $$
DECLARE
  c CONSTANT bigint := 1;
BEGIN
  c := 2;
  RETURN c;
END;
$$;
