CREATE FUNCTION f(n bigint) RETURNS bigint LANGUAGE plpgsql AS $$
DECLARE x bigint; BEGIN x := g(); RETURN x; END;
$$;
