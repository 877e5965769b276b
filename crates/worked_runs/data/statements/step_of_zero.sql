CREATE FUNCTION f(a bigint) RETURNS bigint LANGUAGE plpgsql AS $$
BEGIN
  FOR i IN a..3 BY 0 LOOP
    NULL;
  END LOOP;
  RETURN 0;
END;
$$;
