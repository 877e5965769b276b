CREATE FUNCTION f(a bigint, acc bigint) RETURNS bigint LANGUAGE plpgsql AS $$
BEGIN RETURN (SELECT f(1, 0)); END;
$$;
