CREATE FUNCTION length(s text) RETURNS bigint LANGUAGE plpgsql AS $$
BEGIN RETURN length(s); END;
$$;
