CREATE FUNCTION f(limit bigint) RETURNS bigint LANGUAGE plpgsql AS $$ BEGIN RETURN 1; END; $$
