CREATE FUNCTION sign_of(a bigint) RETURNS bigint LANGUAGE plpgsql AS $$
BEGIN
  IF a > 0 THEN
    RETURN 1;
  END IF;
  RETURN 2;
END;
$$;
