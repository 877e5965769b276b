CREATE FUNCTION g(s bigint) RETURNS bigint LANGUAGE plpgsql AS $$
BEGIN RETURN g(s); END;
$$;
