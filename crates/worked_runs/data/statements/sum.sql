CREATE FUNCTION public.f(m bigint) RETURNS bigint LANGUAGE plpgsql AS $$
DECLARE
  t bigint := 0;
BEGIN
  FOR i IN 1..m LOOP
    t := t + i;
  END LOOP;
  RETURN t;
END;
$$;
