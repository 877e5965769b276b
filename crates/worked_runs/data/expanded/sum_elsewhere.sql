CREATE FUNCTION g(a bigint) RETURNS bigint LANGUAGE plpgsql AS $$
BEGIN RETURN 1 + f(a); END;
$$;
