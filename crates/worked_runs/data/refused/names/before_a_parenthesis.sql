CREATE FUNCTION f(n bigint) RETURNS bigint LANGUAGE plpgsql AS $$
BEGIN
  SELECT INTO STRICT x (n + 1) ;
  RETURN n;
END;
$$;
