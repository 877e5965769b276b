CREATE FUNCTION f() RETURNS bigint LANGUAGE plpgsql AS $$
DECLARE
  n bigint;
  s bigint := 0;
BEGIN
  FOR i IN 1..3 LOOP
    SELECT count(*) INTO n FROM t WHERE t.k = i;
    s := s + n;
  END LOOP;
  RETURN s;
END;
$$
