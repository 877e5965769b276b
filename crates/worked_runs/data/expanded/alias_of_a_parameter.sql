CREATE FUNCTION f(a bigint) RETURNS bigint LANGUAGE plpgsql AS $$
BEGIN RETURN (SELECT count(*) FROM t AS a WHERE a.k = 2); END;
$$;
