-- The function never divides where a is 0 or less.
CREATE FUNCTION early(a bigint) RETURNS bigint LANGUAGE plpgsql AS $$
BEGIN
  IF a > 0 THEN
    RETURN 1 / 0;
  END IF;
  RETURN a;
END;
$$;
