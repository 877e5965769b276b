CREATE FUNCTION f(a bigint) RETURNS integer LANGUAGE plpgsql AS $$ DECLARE x integer := a; BEGIN RETURN x; END; $$
