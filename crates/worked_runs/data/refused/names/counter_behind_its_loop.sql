CREATE FUNCTION f(n bigint) RETURNS bigint LANGUAGE plpgsql AS $$
BEGIN
  FOR i IN 1 .. n LOOP
    EXIT WHEN i > 3;
  END LOOP;
  RETURN i;
END;
$$;
