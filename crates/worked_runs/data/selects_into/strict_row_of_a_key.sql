CREATE FUNCTION f(q bigint) RETURNS text LANGUAGE plpgsql AS $$
DECLARE
  r text;
BEGIN
  SELECT t.v INTO STRICT r FROM t WHERE t.k = q;
  RETURN r;
END;
$$
