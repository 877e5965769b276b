CREATE FUNCTION f() RETURNS bigint LANGUAGE plpgsql AS $$ DECLARE x bigint; x text; BEGIN RETURN y; END; $$;
