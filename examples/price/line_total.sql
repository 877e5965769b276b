-- Written for this folder: a price look-up with rounding, as shops have it.
-- What so many pieces cost on a day in cents: by the newest price until then, less the rebate of the number, rounded to whole cents.
CREATE OR REPLACE FUNCTION public.line_total(an_article text, number bigint, a_day bigint)
 RETURNS bigint
 LANGUAGE plpgsql
 STABLE
AS $function$
DECLARE
  each bigint;
  less bigint;
BEGIN
  IF number < 1 THEN
    RAISE EXCEPTION 'no piece is ordered';
  END IF;
  SELECT price.cents INTO STRICT each
  FROM price
  WHERE price.article = an_article AND price.since <= a_day
  ORDER BY price.since DESC
  LIMIT 1;
  SELECT coalesce(max(rebate.percent), 0) INTO less FROM rebate WHERE rebate.pieces <= number;
  RETURN (each * number * (100 - less) + 50) / 100;
END;
$function$
