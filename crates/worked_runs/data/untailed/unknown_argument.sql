CREATE FUNCTION f(a bigint, acc bigint) RETURNS bigint LANGUAGE plpgsql AS $$
BEGIN RETURN f(zz, 0); END;
$$;
