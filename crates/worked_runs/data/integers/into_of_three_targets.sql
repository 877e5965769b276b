CREATE FUNCTION f() RETURNS bigint LANGUAGE plpgsql AS $$
DECLARE
  x bigint;
  y bigint;
  z text;
BEGIN
  SELECT n.i, n.b, NULL INTO x, y, z FROM n;
  RETURN x + y;
END;
$$
