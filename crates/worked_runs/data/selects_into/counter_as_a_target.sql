CREATE FUNCTION f() RETURNS bigint LANGUAGE plpgsql AS $$
DECLARE
  s bigint := 0;
BEGIN
  FOR i IN 1..3 LOOP
    SELECT i * 10 INTO i;
    s := s + i;
  END LOOP;
  RETURN s;
END;
$$
