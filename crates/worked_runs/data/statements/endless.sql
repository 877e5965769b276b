CREATE FUNCTION f(a bigint) RETURNS bigint LANGUAGE plpgsql AS $$
DECLARE
  x bigint := 0;
BEGIN
  LOOP
    x := x + a;
  END LOOP;
END;
$$;
