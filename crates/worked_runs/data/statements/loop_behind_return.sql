CREATE FUNCTION f(a bigint) RETURNS bigint LANGUAGE plpgsql AS $$
DECLARE
  x bigint := 0;
BEGIN
  RETURN 1;
  LOOP
    x := x + 1;
  END LOOP;
END;
$$
