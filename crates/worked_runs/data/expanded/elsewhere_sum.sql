CREATE FUNCTION f(n bigint) RETURNS bigint LANGUAGE plpgsql AS $$
DECLARE x bigint; BEGIN x := 1 + g(n); RETURN x; END;
$$;
