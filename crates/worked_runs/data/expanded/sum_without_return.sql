CREATE FUNCTION g(a bigint) RETURNS bigint LANGUAGE plpgsql AS $$
DECLARE s bigint := 0; BEGIN FOR i IN 1..a LOOP s := s + i; END LOOP; END;
$$;
