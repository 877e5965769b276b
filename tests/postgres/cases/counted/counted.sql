-- The counter of FOR at both ends of its range: so many turns up, and then down, and the last values of the variable.
CREATE FUNCTION counted(low bigint, high bigint, step bigint) RETURNS text LANGUAGE plpgsql AS $$
DECLARE
  turns bigint := 0;
  up bigint;
  down bigint;
BEGIN
  FOR i IN low .. high BY step LOOP
    turns := turns + 1;
    up := i;
    i := 0;
  END LOOP;
  FOR i IN REVERSE high .. low BY step LOOP
    turns := turns + 1;
    down := i;
  END LOOP;
  RETURN turns || ': ' || COALESCE(up, 0) || ', ' || COALESCE(down, 0);
END;
$$;
