CREATE FUNCTION g(a bigint) RETURNS bigint LANGUAGE plpgsql;
