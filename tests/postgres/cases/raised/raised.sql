-- The faults that statements raise: a query has them in its second column.
CREATE FUNCTION raised(choice bigint) RETURNS text LANGUAGE plpgsql AS $$
DECLARE
  needed bigint NOT NULL := 1;
  missing bigint;
BEGIN
  IF choice = 1 THEN
    RAISE EXCEPTION 'refused';
  ELSIF choice = 2 THEN
    RAISE EXCEPTION SQLSTATE 'AB123';
  ELSIF choice = 3 THEN
    CASE WHEN choice > 3 THEN RETURN 'never'; END CASE;
  ELSIF choice = 4 THEN
    needed := missing;
  ELSIF choice = 5 THEN
    FOR i IN 1..missing LOOP NULL; END LOOP;
  ELSIF choice = 6 THEN
    FOR i IN 1..10 BY choice - 6 LOOP NULL; END LOOP;
  ELSIF choice = 7 THEN
    RETURN 'chosen ' || choice;
  END IF;
END;
$$;
