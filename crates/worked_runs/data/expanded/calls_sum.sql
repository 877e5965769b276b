CREATE FUNCTION m(n bigint) RETURNS bigint LANGUAGE plpgsql AS $$
DECLARE x bigint; BEGIN x := f(n, 0); RETURN x; END;
$$;
