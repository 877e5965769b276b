CREATE FUNCTION length(s text) RETURNS bigint LANGUAGE plpgsql AS $$
BEGIN RETURN 1; END;
$$;
