CREATE FUNCTION f(a bigint) RETURNS bigint LANGUAGE plpgsql AS $$
DECLARE a bigint := a + 1; BEGIN DECLARE a bigint := a * 2; BEGIN RETURN a; END; END;
$$;
