CREATE FUNCTION f(a bigint) RETURNS bigint LANGUAGE plpgsql AS $$ DECLARE x bigint; BEGIN x := 1 / 0; RETURN 5; END; $$
