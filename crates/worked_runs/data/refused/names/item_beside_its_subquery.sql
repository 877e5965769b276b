CREATE FUNCTION f(n bigint) RETURNS bigint LANGUAGE plpgsql AS $$
BEGIN
  RETURN (SELECT count(*) FROM t AS a, (SELECT b.k FROM t AS b WHERE b.k = a.k) AS c);
END;
$$;
