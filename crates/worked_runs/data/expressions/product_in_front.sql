CREATE FUNCTION f(a bigint, b bigint) RETURNS bigint LANGUAGE plpgsql AS $$ BEGIN RETURN (a * b) + 1; END; $$;
