CREATE FUNCTION inc(n bigint) RETURNS bigint LANGUAGE plpgsql AS $$
BEGIN RETURN m; END;
$$;
