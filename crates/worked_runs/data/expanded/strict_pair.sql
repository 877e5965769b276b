CREATE FUNCTION g(a bigint, b bigint) RETURNS bigint LANGUAGE plpgsql STRICT AS $$
BEGIN RETURN 1; END;
$$;
