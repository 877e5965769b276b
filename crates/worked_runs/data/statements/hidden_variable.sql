CREATE FUNCTION public.f() RETURNS bigint LANGUAGE plpgsql AS $$
DECLARE
  x bigint := 1;
BEGIN
  DECLARE
    x bigint := 2;
  BEGIN
    RETURN x;
  END;
END;
$$;
