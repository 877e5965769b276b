CREATE FUNCTION f(away_a bigint) RETURNS bigint LANGUAGE plpgsql AS $$ BEGIN RETURN 1; END; $$
