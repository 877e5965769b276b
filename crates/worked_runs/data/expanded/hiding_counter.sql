CREATE FUNCTION f() RETURNS bigint LANGUAGE plpgsql AS $$
DECLARE i bigint := 2; s bigint := 0; BEGIN FOR i IN 1..i LOOP s := s + i; END LOOP; RETURN s * 10 + i; END;
$$;
