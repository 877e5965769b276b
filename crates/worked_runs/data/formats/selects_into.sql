CREATE FUNCTION f(n bigint) RETURNS bigint LANGUAGE plpgsql AS $$
DECLARE
  a CONSTANT bigint NOT NULL = n::bigint;
  b text DEFAULT 'it''s';
BEGIN
  SELECT INTO STRICT n, b t.k, t.v AS w FROM public.t WHERE (t.k = 1) ORDER BY t.k DESC, t.v ASC LIMIT 1;
  SELECT count(*) INTO n FROM t AS u;
END $$
