CREATE FUNCTION f(n bigint) RETURNS bigint LANGUAGE plpgsql AS $$
BEGIN
  CASE
    WHEN n = 1 THEN
      BEGIN
        n = zz + (2 * 3);
      END;
    WHEN n = 2 THEN
      LOOP END LOOP;
    ELSE
      NULL;
  END CASE;
END $$
