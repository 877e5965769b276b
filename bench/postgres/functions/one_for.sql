CREATE OR REPLACE FUNCTION public.one_for(n bigint) RETURNS bigint
LANGUAGE plpgsql IMMUTABLE AS $$
DECLARE
  total bigint := 0;
BEGIN
  FOR turn IN 1 .. 300 LOOP
    total := (total * 31 + n) % 1000003;
  END LOOP;
  RETURN total;
END;
$$;
