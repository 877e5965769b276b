CREATE FUNCTION f(a bigint, acc bigint) RETURNS bigint LANGUAGE plpgsql AS $$
DECLARE a bigint := 2; BEGIN
  IF acc > 9 THEN RETURN a; END IF;
  RETURN f(a + 5, acc * a);
END;
$$;
