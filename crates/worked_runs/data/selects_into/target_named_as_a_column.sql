CREATE FUNCTION f() RETURNS bigint LANGUAGE plpgsql AS $$
DECLARE
  k bigint;
BEGIN
  SELECT t.k INTO k FROM t WHERE t.v = 'one';
  RETURN k;
END;
$$
