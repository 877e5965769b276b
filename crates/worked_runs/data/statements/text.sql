CREATE FUNCTION public.f() RETURNS text LANGUAGE plpgsql AS $$
BEGIN
  RETURN 'héllo';
END;
$$;
