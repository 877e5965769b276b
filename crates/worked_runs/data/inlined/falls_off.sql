CREATE FUNCTION inc(n bigint) RETURNS bigint LANGUAGE plpgsql AS $$
BEGIN IF n > 0 THEN RETURN n; END IF; END;
$$;
