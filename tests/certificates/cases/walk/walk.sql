CREATE FUNCTION walk(lim bigint) RETURNS bigint LANGUAGE plpgsql STABLE AS $$
DECLARE
  best bigint;
  total bigint := 0;
BEGIN
  <<outer_loop>>
  FOR s IN 0..99 LOOP
    best := (SELECT max(r.cost) FROM route r WHERE r.src = s);
    FOR d IN 0..9 LOOP
      total := total + COALESCE(best, 0);
      EXIT outer_loop WHEN total > lim;
    END LOOP;
  END LOOP;
  RETURN total;
END;
$$;
