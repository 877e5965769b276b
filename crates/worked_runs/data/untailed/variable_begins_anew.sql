CREATE FUNCTION f(n bigint) RETURNS bigint LANGUAGE plpgsql AS $$
DECLARE s bigint; BEGIN
  s := COALESCE(s, 0) + 1;
  IF n = 0 THEN RETURN s; END IF;
  RETURN f(n - 1);
END;
$$;
