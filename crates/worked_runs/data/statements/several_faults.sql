CREATE FUNCTION f(n bigint) RETURNS bigint LANGUAGE plpgsql AS $$
DECLARE
  x bigint NOT NULL := n;
BEGIN
  IF n = 0 THEN
    RAISE SQLSTATE 'AB123';
  END IF;
  FOR i IN 1 .. 3 BY 2 LOOP
    x := x + i;
    CASE WHEN x = 1 THEN RAISE EXCEPTION 'one'; WHEN x = 2 THEN x := 3; END CASE;
  END LOOP;
  IF n = 1 THEN
    RAISE SQLSTATE 'AB123';
  END IF;
END;
$$;
