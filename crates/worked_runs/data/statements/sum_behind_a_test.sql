CREATE FUNCTION public.f(m bigint) RETURNS bigint LANGUAGE plpgsql AS $$
DECLARE
  t bigint := 0;
BEGIN
  FOR i IN 1..m LOOP
    IF t >= 0 THEN
      t := t + i;
    END IF;
  END LOOP;
  RETURN t;
END;
$$;
