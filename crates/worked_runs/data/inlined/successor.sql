CREATE FUNCTION inc(n bigint) RETURNS bigint LANGUAGE plpgsql AS $$
BEGIN RETURN n + 1; END;
$$;
