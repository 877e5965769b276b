-- After walk of Duta, Hirn and Grust, "Compiling PL/SQL Away" (CIDR 2020).
-- A robot on a grid goes where the policy of its cell says, and slips where the dice is high. The answer is the number of the step
-- in which its rewards come to win, or, below zero, to lose; 0 where neither happens.
CREATE OR REPLACE FUNCTION public.walk(origin text, win bigint, lose bigint, steps bigint)
 RETURNS bigint
 LANGUAGE plpgsql
 STABLE
AS $function$
DECLARE
  here text := origin;
  heading text;
  thrown bigint := 3;
  rewards bigint := 0;
BEGIN
  FOR number IN 1 .. steps LOOP
    thrown := (thrown * 11 + 5) % 17;
    SELECT cell.direction INTO STRICT heading FROM cell WHERE cell.place = here;
    SELECT step.target INTO STRICT here
    FROM step
    WHERE step.place = here AND step.direction = heading AND step.dice <= thrown
    ORDER BY step.dice DESC
    LIMIT 1;
    rewards := rewards + (SELECT cell.reward FROM cell WHERE cell.place = here);
    IF rewards >= win THEN
      RETURN number;
    ELSIF rewards <= lose THEN
      RETURN -number;
    END IF;
  END LOOP;
  RETURN 0;
END;
$function$
