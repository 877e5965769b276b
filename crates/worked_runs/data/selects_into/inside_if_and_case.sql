CREATE FUNCTION f() RETURNS bigint LANGUAGE plpgsql AS $$
DECLARE
  a bigint;
  b bigint;
BEGIN
  IF TRUE THEN
    SELECT INTO a 4;
  END IF;
  CASE WHEN a = 4 THEN
    SELECT 7 INTO b;
  END CASE;
  RETURN a + b;
END;
$$
