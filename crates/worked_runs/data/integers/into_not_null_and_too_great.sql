CREATE FUNCTION f(q bigint) RETURNS integer LANGUAGE plpgsql AS $$
DECLARE
  b bigint NOT NULL := 1;
  a integer;
BEGIN
  SELECT NULL, q INTO b, a;
  RETURN a;
END;
$$
