CREATE FUNCTION f(n bigint) RETURNS bigint LANGUAGE plpgsql AS $$
BEGIN
  IF n > 1 RETURN n; END IF;
  RETURN 0;
END;
$$;
