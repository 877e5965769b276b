CREATE FUNCTION f(n bigint) RETURNS bigint LANGUAGE plpgsql AS $$
DECLARE x bigint; BEGIN x := g(NULL, 1 / 0); RETURN x; END;
$$;
