CREATE FUNCTION f(a integer) RETURNS boolean LANGUAGE plpgsql AS $$ BEGIN RETURN a::boolean; END; $$
