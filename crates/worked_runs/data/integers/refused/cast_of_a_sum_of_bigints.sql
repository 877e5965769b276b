CREATE FUNCTION f() RETURNS integer LANGUAGE plpgsql AS $$
DECLARE
  x integer;
BEGIN
  SELECT CAST(sum(n.b) AS integer) INTO x FROM n;
  RETURN x;
END;
$$
