CREATE FUNCTION f() RETURNS integer LANGUAGE plpgsql AS $$
DECLARE
  x integer;
BEGIN
  SELECT sum(n.i) INTO x FROM n;
  RETURN x;
END;
$$
