CREATE FUNCTION f() RETURNS bigint LANGUAGE plpgsql AS $$
DECLARE
  c bigint := 0;
BEGIN
  FOR i IN 3000000000..NULL LOOP
    c := c + 1;
  END LOOP;
  RETURN c;
END;
$$
