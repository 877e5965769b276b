CREATE FUNCTION f(a bigint) RETURNS bigint LANGUAGE plpgsql AS $$
DECLARE
  x bigint := 0;
BEGIN
  RETURN 1;
  BEGIN
    FOR i IN 1..3 LOOP
      x := x + i;
    END LOOP;
    RETURN x;
  END;
END;
$$
