-- What so many pieces of an article cost in packs: the largest pack that isn't too large, again and again.
CREATE OR REPLACE FUNCTION public.cost_in_packs(an_article text, pieces bigint)
 RETURNS bigint
 LANGUAGE plpgsql
 STABLE
AS $function$
DECLARE
  remaining bigint := pieces;
  total bigint := 0;
  size bigint;
  price bigint;
BEGIN
  WHILE remaining > 0 LOOP
    SELECT pack.size, pack.price INTO STRICT size, price
    FROM pack
    WHERE pack.article = an_article AND pack.size <= remaining
    ORDER BY pack.size DESC
    LIMIT 1;
    remaining := remaining - size;
    total := total + price;
  END LOOP;
  RETURN total;
END;
$function$
