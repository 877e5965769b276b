CREATE FUNCTION f(n bigint) RETURNS bigint LANGUAGE plpgsql AS $$
BEGIN
  FOR i IN 1..3 LOOP
    IF n > 0 THEN RETURN f(n - 1); END IF;
  END LOOP;
  RETURN n;
END;
$$;
