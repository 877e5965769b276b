CREATE FUNCTION f(a bigint) RETURNS integer LANGUAGE plpgsql AS $$
DECLARE
  x integer NOT NULL := a;
BEGIN
  RETURN x;
END;
$$
