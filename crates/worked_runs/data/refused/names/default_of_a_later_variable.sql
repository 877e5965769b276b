CREATE FUNCTION f(n bigint) RETURNS bigint LANGUAGE plpgsql AS $$
DECLARE
  a bigint := n;
  b bigint := a + c;
  c bigint := 1;
BEGIN
  RETURN b + c;
END;
$$;
