CREATE FUNCTION f(a bigint, b bigint) RETURNS bigint LANGUAGE plpgsql AS $$
DECLARE
  c bigint := 0;
BEGIN
  FOR i IN a..b LOOP
    c := c + 1;
  END LOOP;
  RETURN c;
END;
$$
