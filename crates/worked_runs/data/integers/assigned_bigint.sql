CREATE FUNCTION f(a bigint) RETURNS integer LANGUAGE plpgsql AS $$ DECLARE x integer; BEGIN x := a; RETURN x; END; $$
