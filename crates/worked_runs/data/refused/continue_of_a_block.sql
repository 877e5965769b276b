CREATE FUNCTION f() RETURNS bigint LANGUAGE plpgsql AS $$
BEGIN
  <<a>> LOOP
    <<a>> BEGIN
      CONTINUE a;
    END;
  END LOOP;
END;
$$;
