CREATE FUNCTION f(a smallint) RETURNS bigint LANGUAGE plpgsql AS $$ BEGIN RETURN 1; END; $$
