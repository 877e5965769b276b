CREATE FUNCTION f(a bigint, b bigint, n bigint) RETURNS bigint LANGUAGE plpgsql AS $$
BEGIN
  IF n = 0 THEN RETURN a; END IF;
  RETURN f(b, a, n - 1);
END;
$$;
