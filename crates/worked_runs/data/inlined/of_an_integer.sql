CREATE FUNCTION f(n integer) RETURNS bigint LANGUAGE plpgsql AS $$
BEGIN RETURN n; END;
$$;
