CREATE FUNCTION f(n bigint) RETURNS bigint LANGUAGE plpgsql AS $$
DECLARE
  total bigint := 0;
BEGIN
  FOR i IN 1 .. n LOOP
    IF i % 2 = 0 THEN
      total := total + i;
    ELSIF i % 3 = 0 THEN
      total := total - i;
    ELSE
      total := total + j;
    END IF;
  END LOOP;
  RETURN total;
END;
$$;
