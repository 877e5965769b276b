/* a /* nested */ comment */ CREATE FUNCTION public() RETURNS bigint LANGUAGE plpgsql AS $$ -- one
BEGIN RETURN 1; END; $$
