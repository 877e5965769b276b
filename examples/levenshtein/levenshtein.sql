-- After R. A. Wagner and M. J. Fischer, "The string-to-string correction problem" (1974), whose table is kept row by row.
-- Distances beside each other differ by one at most, so a text holds a row: each is up, down or even (u, d, e) from the one before it.
CREATE OR REPLACE FUNCTION public.levenshtein(a text, b text)
 RETURNS bigint
 LANGUAGE plpgsql
 IMMUTABLE STRICT
AS $function$
DECLARE
  steps text := '';
  new_steps text;
  above bigint;
  corner bigint;
  before bigint;
  distance bigint := length(b);
BEGIN
  FOR j IN 1 .. length(b) LOOP
    steps := steps || 'u';
  END LOOP;
  FOR i IN 1 .. length(a) LOOP
    new_steps := '';
    above := i - 1;
    distance := i;
    FOR j IN 1 .. length(b) LOOP
      before := distance;
      corner := above;
      CASE
        WHEN substr(steps, j, 1) = 'u' THEN
          above := above + 1;
        WHEN substr(steps, j, 1) = 'd' THEN
          above := above - 1;
        ELSE
          NULL;
      END CASE;
      distance := least(before + 1, above + 1, CASE WHEN substr(a, i, 1) = substr(b, j, 1) THEN corner ELSE corner + 1 END);
      new_steps := new_steps || CASE WHEN distance > before THEN 'u' WHEN distance < before THEN 'd' ELSE 'e' END;
    END LOOP;
    steps := new_steps;
  END LOOP;
  RETURN distance;
END;
$function$
