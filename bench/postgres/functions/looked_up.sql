CREATE OR REPLACE FUNCTION public.looked_up(place bigint, turns bigint) RETURNS bigint
LANGUAGE plpgsql STABLE AS $$
DECLARE
  spot bigint := place;
  total bigint := 0;
  fee bigint;
BEGIN
  FOR turn IN 1 .. turns LOOP
    SELECT edge.following, edge.cost INTO spot, fee FROM edge WHERE edge.id = spot;
    total := total + fee;
  END LOOP;
  RETURN total;
END;
$$;
