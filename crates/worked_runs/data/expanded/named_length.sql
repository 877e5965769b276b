CREATE FUNCTION length(s bigint) RETURNS bigint LANGUAGE plpgsql AS $$
BEGIN RETURN s; END;
$$;
