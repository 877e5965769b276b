CREATE FUNCTION f(n bigint) RETURNS bigint LANGUAGE plpgsql AS $$
DECLARE
  s bigint := 0;
BEGIN
  WHILE s < n
    s := s + 1;
  END LOOP;
  RETURN s;
END;
$$;
