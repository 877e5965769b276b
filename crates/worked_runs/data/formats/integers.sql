CREATE FUNCTION f(a int4, b int) RETURNS Integer LANGUAGE plpgsql AS $$
DECLARE
  c int NOT NULL DEFAULT a::int8::int4;
BEGIN
  FOR i IN 1..3000000000 BY 2 LOOP
    c := -c + i;
  END LOOP;
  RETURN b % -2147483648;
END $$
