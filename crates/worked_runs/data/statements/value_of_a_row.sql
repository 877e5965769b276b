CREATE FUNCTION f(q bigint) RETURNS text LANGUAGE plpgsql AS $$ BEGIN RETURN (SELECT t.v FROM t WHERE t.k = q); END; $$;
