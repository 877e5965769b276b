CREATE FUNCTION f() RETURNS bigint LANGUAGE plpgsql AS $$
DECLARE
  c bigint := 0;
BEGIN
  FOR i IN 1..1 LOOP
    i := 3000000000;
  END LOOP;
  RETURN c;
END;
$$
