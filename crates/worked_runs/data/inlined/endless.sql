CREATE FUNCTION endless(n bigint) RETURNS bigint LANGUAGE plpgsql AS $$
BEGIN LOOP NULL; END LOOP; END;
$$;
