-- Euclid's Elements, book VII, proposition 2, with the remainder for repeated subtraction.
CREATE OR REPLACE FUNCTION public.common_divisor(a bigint, b bigint)
 RETURNS bigint
 LANGUAGE plpgsql
 IMMUTABLE STRICT
AS $function$
DECLARE
  remainder bigint;
BEGIN
  WHILE b <> 0 LOOP
    remainder := a % b;
    a := b;
    b := remainder;
  END LOOP;
  IF a < 0 THEN
    a := -a;
  END IF;
  RETURN a;
END;
$function$
