CREATE FUNCTION f() RETURNS bigint LANGUAGE plpgsql AS $$
DECLARE
  c bigint := 0;
BEGIN
  FOR i IN 1..2 BY 3000000000 LOOP
    c := c + 1;
  END LOOP;
  RETURN c;
END;
$$
