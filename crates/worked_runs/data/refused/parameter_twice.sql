CREATE FUNCTION f(a bigint, A bigint) RETURNS bigint LANGUAGE plpgsql AS $$ BEGIN RETURN a; END; $$
