CREATE FUNCTION g(a bigint) RETURNS bigint LANGUAGE plpgsql AS $$
DECLARE s bigint; BEGIN s := COALESCE(s, 0) + a; RETURN s; END;
$$;
