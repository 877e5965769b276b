CREATE FUNCTION f() RETURNS bigint LANGUAGE plpgsql AS $$ DECLARE away_x bigint; BEGIN RETURN 1; END; $$;
