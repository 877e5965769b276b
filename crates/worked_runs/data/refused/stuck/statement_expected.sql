CREATE FUNCTION f(n bigint) RETURNS bigint LANGUAGE plpgsql AS $$
BEGIN
  IF n > 1 THEN
    n + 1;
  END IF;
  RETURN n;
END;
$$;
