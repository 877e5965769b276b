CREATE FUNCTION f(a bigint) RETURNS bigint LANGUAGE plpgsql AS $$
BEGIN RETURN a; END;
$$;
