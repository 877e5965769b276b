CREATE FUNCTION f(a bigint, acc bigint) RETURNS bigint LANGUAGE plpgsql AS $$
BEGIN
  IF a = 0 THEN RETURN acc; END IF;
  RETURN f(a - 1, acc + a);
END;
$$;
