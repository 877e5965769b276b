CREATE FUNCTION public.f(a bigint) RETURNS bigint LANGUAGE plpgsql AS $$ DECLARE a bigint := 2; BEGIN RETURN a; END; $$;
