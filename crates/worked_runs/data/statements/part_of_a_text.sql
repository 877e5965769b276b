CREATE FUNCTION f(s text, p bigint, n bigint) RETURNS text LANGUAGE plpgsql AS $$ BEGIN RETURN substr(s, p, n); END; $$;
