CREATE OR REPLACE FUNCTION public.two_loops(n bigint) RETURNS bigint
LANGUAGE plpgsql IMMUTABLE AS $$
DECLARE
  total bigint := 0;
  i bigint := 0;
  j bigint;
BEGIN
  WHILE i < n LOOP
    j := 0;
    WHILE j < 30 LOOP
      total := (total * 31 + j) % 1000003;
      j := j + 1;
      EXIT WHEN total % 97 = 5;
    END LOOP;
    i := i + 1;
  END LOOP;
  RETURN total;
END;
$$;
