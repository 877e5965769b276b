CREATE FUNCTION f(a bigint) RETURNS bigint LANGUAGE plpgsql AS $$
DECLARE
  x bigint NOT NULL := 1;
BEGIN
  x := a;
  RETURN x;
END;
$$
