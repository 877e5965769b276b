CREATE FUNCTION f(n bigint) RETURNS bigint LANGUAGE plpgsql AS $$
DECLARE
  x CONSTANT bigint := 1;
BEGIN
  DECLARE
    x bigint := 2;
  BEGIN
    x := n;
  END;
  x := x + n;
  RETURN x;
END;
$$;
