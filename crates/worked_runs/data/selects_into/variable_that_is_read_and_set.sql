CREATE FUNCTION f() RETURNS bigint LANGUAGE plpgsql AS $$
DECLARE
  a bigint := 1;
  b bigint := 0;
BEGIN
  SELECT t.k + 1, t.k INTO a, b FROM t WHERE t.k = a;
  RETURN a * 10 + b;
END;
$$
