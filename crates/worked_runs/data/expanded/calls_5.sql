CREATE FUNCTION f() RETURNS bigint LANGUAGE plpgsql AS $$
DECLARE x bigint; BEGIN x := g(); x := g(); x := g(); x := g(); x := g(); RETURN x; END;
$$;
