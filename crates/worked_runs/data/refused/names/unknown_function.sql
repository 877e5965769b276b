CREATE FUNCTION f(n bigint) RETURNS bigint LANGUAGE plpgsql AS $$
BEGIN
  RETURN n + modulo(n, 2);
END;
$$;
