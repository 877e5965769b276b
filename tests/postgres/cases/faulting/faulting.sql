-- The faults of expressions and of subqueries.
CREATE FUNCTION faulting(a bigint, b bigint) RETURNS text LANGUAGE plpgsql STABLE AS $$
DECLARE
  found text := (SELECT pair.v FROM pair WHERE pair.k = a);
  few text := (SELECT pair.v FROM pair ORDER BY pair.k DESC, pair.v LIMIT CASE WHEN b < 0 THEN b ELSE 1 END);
BEGIN
  RETURN COALESCE(found, few, 'none') || ': ' || a / b || ', ' || a % b;
END;
$$;
