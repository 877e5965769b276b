CREATE FUNCTION f(a bigint, acc bigint) RETURNS bigint LANGUAGE plpgsql AS $$
BEGIN RETURN f(f(a, 0), 0); END;
$$;
