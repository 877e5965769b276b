CREATE FUNCTION f(a bigint, acc bigint) RETURNS bigint LANGUAGE plpgsql AS $$
BEGIN RETURN 1 + f(a - 1, acc); END;
$$;
