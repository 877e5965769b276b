-- The function faults where a is 0, though nothing reads the quotient.
CREATE FUNCTION unused(a bigint) RETURNS bigint LANGUAGE plpgsql AS $$
DECLARE
  quotient bigint;
BEGIN
  quotient := 10 / a;
  RETURN a + 5;
END;
$$;
