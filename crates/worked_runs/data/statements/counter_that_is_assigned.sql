CREATE FUNCTION f(a bigint) RETURNS bigint LANGUAGE plpgsql AS $$
DECLARE
  s bigint := 0;
BEGIN
  FOR i IN 1..3 LOOP
    i := i * 10;
    s := s + i;
  END LOOP;
  RETURN s;
END;
$$
