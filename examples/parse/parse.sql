-- After parse of Duta, Hirn and Grust, "Compiling PL/SQL Away" (CIDR 2020).
-- Whether a finite state machine takes the text: it goes along an edge for each letter, from the state start to a final one.
CREATE OR REPLACE FUNCTION public.parse(input text)
 RETURNS boolean
 LANGUAGE plpgsql
 STABLE STRICT
AS $function$
DECLARE
  state text := 'start';
  letter text;
BEGIN
  FOR place IN 1 .. length(input) LOOP
    letter := substr(input, place, 1);
    SELECT edge.target INTO state
    FROM edge
    WHERE edge.source = state AND letter BETWEEN edge.low AND edge.high;
    IF state IS NULL THEN
      RETURN false;
    END IF;
  END LOOP;
  RETURN EXISTS (SELECT final.name FROM final WHERE final.name = state);
END;
$function$
