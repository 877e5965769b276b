CREATE FUNCTION g(a bigint) RETURNS bigint LANGUAGE plpgsql AS $$
BEGIN RETURN zz; END;
$$;
