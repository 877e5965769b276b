CREATE FUNCTION f(n bigint) RETURNS bigint LANGUAGE plpgsql AS $$
DECLARE x bigint; BEGIN x := g('a'); RETURN x; END;
$$;
