CREATE FUNCTION f(a bigint) RETURNS text LANGUAGE plpgsql AS $$
DECLARE
  r text := '';
BEGIN
  FOR i IN REVERSE 10..1 BY 3 LOOP
    r := r || i;
  END LOOP;
  RETURN r;
END;
$$
