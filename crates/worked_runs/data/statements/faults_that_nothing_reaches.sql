CREATE FUNCTION f(n bigint) RETURNS bigint LANGUAGE plpgsql AS $$
BEGIN
  LOOP
    IF n = 0 THEN
      RETURN 1;
      RAISE EXCEPTION 'not reached';
    ELSE
      n := n - 1;
    END IF;
    CONTINUE;
    RAISE SQLSTATE 'AB123';
  END LOOP;
  RAISE EXCEPTION 'nor this';
END;
$$;
