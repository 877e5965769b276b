CREATE FUNCTION f(q bigint) RETURNS text LANGUAGE plpgsql AS $$
DECLARE
  r text NOT NULL := 'x';
BEGIN
  SELECT t.v INTO r FROM t WHERE t.k = q;
  RETURN r;
END;
$$
