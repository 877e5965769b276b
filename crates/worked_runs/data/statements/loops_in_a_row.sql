CREATE FUNCTION many_loops(n bigint) RETURNS bigint LANGUAGE plpgsql AS $$
DECLARE
  i bigint := 0;
BEGIN
  WHILE i < n LOOP i := i + 1; END LOOP;
  WHILE i < n LOOP i := i + 1; END LOOP;
  WHILE i < n LOOP i := i + 1; END LOOP;
  WHILE i < n LOOP i := i + 1; END LOOP;
  WHILE i < n LOOP i := i + 1; END LOOP;
  WHILE i < n LOOP i := i + 1; END LOOP;
  WHILE i < n LOOP i := i + 1; END LOOP;
  WHILE i < n LOOP i := i + 1; END LOOP;
  WHILE i < n LOOP i := i + 1; END LOOP;
  WHILE i < n LOOP i := i + 1; END LOOP;
  WHILE i < n LOOP i := i + 1; END LOOP;
  WHILE i < n LOOP i := i + 1; END LOOP;
  WHILE i < n LOOP i := i + 1; END LOOP;
  WHILE i < n LOOP i := i + 1; END LOOP;
  WHILE i < n LOOP i := i + 1; END LOOP;
  WHILE i < n LOOP i := i + 1; END LOOP;
  WHILE i < n LOOP i := i + 1; END LOOP;
  RETURN i;
END;
$$;
