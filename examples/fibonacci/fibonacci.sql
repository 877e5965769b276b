-- After fibonacci of Duta, Hirn and Grust, "Compiling PL/SQL Away" (CIDR 2020).
CREATE OR REPLACE FUNCTION public.fibonacci(n bigint)
 RETURNS bigint
 LANGUAGE plpgsql
 IMMUTABLE
AS $function$
DECLARE
  number bigint := 0;
  following bigint := 1;
  further bigint;
BEGIN
  FOR step IN 1 .. n LOOP
    further := number + following;
    number := following;
    following := further;
  END LOOP;
  RETURN number;
END;
$function$
