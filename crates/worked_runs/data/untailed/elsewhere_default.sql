CREATE FUNCTION f(a bigint, acc bigint) RETURNS bigint LANGUAGE plpgsql AS $$
DECLARE x bigint := f(a, 0); BEGIN RETURN x; END;
$$;
