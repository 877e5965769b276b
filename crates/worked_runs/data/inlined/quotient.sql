CREATE FUNCTION inv(n bigint) RETURNS bigint LANGUAGE plpgsql AS $$
BEGIN RETURN 10 / n; END;
$$;
