CREATE FUNCTION f(x bigint) RETURNS bigint LANGUAGE plpgsql AS $$
BEGIN
  IF x <> 0 AND 10 / x > 1 THEN
    RETURN 100 / x + (SELECT max(u.v) FROM u);
  ELSE
    RETURN (SELECT count(*) FROM w);
  END IF;
END;
$$;
