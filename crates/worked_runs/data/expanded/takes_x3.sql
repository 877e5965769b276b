CREATE FUNCTION f(x1 bigint) RETURNS bigint LANGUAGE plpgsql AS $$
DECLARE X3 bigint := x1; BEGIN RETURN x3; END;
$$;
