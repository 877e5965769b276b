-- Written for this folder: an interest plan, as lenders have it.
-- What is left of a loan after some months, in cents: each month takes interest, a twelfth of so many hundredths of a percent and
-- rounded to whole cents, and brings a payment. A payment that doesn't cover the interest is an error.
CREATE OR REPLACE FUNCTION public.balance_after(loan bigint, rate bigint, payment bigint, months bigint)
 RETURNS bigint
 LANGUAGE plpgsql
 IMMUTABLE
AS $function$
DECLARE
  balance bigint := loan;
  interest bigint;
BEGIN
  FOR month IN 1 .. months LOOP
    interest := (balance * rate + 60000) / 120000;
    IF payment <= interest THEN
      RAISE EXCEPTION SQLSTATE '22023';
    END IF;
    balance := balance + interest - payment;
    IF balance <= 0 THEN
      RETURN 0;
    END IF;
  END LOOP;
  RETURN balance;
END;
$function$
