CREATE FUNCTION f() RETURNS bigint LANGUAGE plpgsql AS $$
DECLARE
  s bigint := 2147483647;
BEGIN
  FOR i IN 1..2 LOOP
    s := s + i;
  END LOOP;
  RETURN s;
END;
$$
