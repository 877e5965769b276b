CREATE FUNCTION public.f(n bigint) RETURNS bigint STRICT LANGUAGE plpgsql AS $$
DECLARE
  steps bigint := 0;
BEGIN
  WHILE n <> 1 LOOP
    IF n % 2 = 0 THEN
      n := n / 2;
    ELSE
      n := 3 * n + 1;
    END IF;
    steps := steps + 1;
  END LOOP;
  RETURN steps;
END;
$$;
