CREATE FUNCTION public.f(a bigint) RETURNS integer LANGUAGE plpgsql AS $$
DECLARE
  i integer;
BEGIN
  SELECT a INTO STRICT i;
  RETURN i;
END;
$$;
