CREATE FUNCTION f(a bigint, acc bigint) RETURNS bigint LANGUAGE plpgsql AS $$
BEGIN RETURN CASE WHEN a = 0 THEN acc ELSE f(a, 0) END; END;
$$;
