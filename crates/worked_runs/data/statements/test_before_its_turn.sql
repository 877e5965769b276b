CREATE FUNCTION public.f(a bigint) RETURNS bigint LANGUAGE plpgsql AS $$
BEGIN
  WHILE 1 / a = 1 LOOP
    EXIT;
  END LOOP;
  RETURN a;
END;
$$;
