CREATE FUNCTION f(n bigint) RETURNS bigint LANGUAGE plpgsql AS $$
DECLARE x bigint NOT NULL := 5; BEGIN x := g(n); RETURN x; END;
$$;
