CREATE FUNCTION f(n bigint) RETURNS bigint LANGUAGE plpgsql AS $$
DECLARE x bigint := g(n); BEGIN RETURN x; END;
$$;
