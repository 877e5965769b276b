CREATE FUNCTION f(n bigint) RETURNS bigint LANGUAGE plpgsql AS $$
BEGIN
  <<o>> LOOP
    LOOP
      IF n = 0 THEN EXIT o; END IF;
      RETURN f(n - 1);
    END LOOP;
  END LOOP o;
  RETURN 5;
END;
$$;
