CREATE FUNCTION f(a bigint) RETURNS bigint LANGUAGE plpgsql AS $$
DECLARE
  c bigint := 0;
BEGIN
  <<far>> FOR i IN 1..9 LOOP
    FOR j IN 1..9 LOOP
      LOOP
        c := c + 1;
        EXIT far WHEN c > a;
        EXIT WHEN c % 2 = 0;
      END LOOP;
    END LOOP;
  END LOOP;
  RETURN c;
END;
$$;
