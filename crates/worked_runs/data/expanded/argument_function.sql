CREATE FUNCTION f(n bigint) RETURNS bigint LANGUAGE plpgsql AS $$
DECLARE x bigint; BEGIN x := h(1); RETURN x; END;
$$;
