CREATE FUNCTION f(a bigint) RETURNS bigint LANGUAGE plpgsql AS $$
DECLARE
  s bigint := 0;
BEGIN
  FOR i IN 1..9 LOOP
    CONTINUE WHEN i % 2 = 0;
    s := s + i;
  END LOOP;
  RETURN s;
END;
$$
