-- After traverse of Duta, Hirn and Grust, "Compiling PL/SQL Away" (CIDR 2020), for a tree.
-- How many bytes there are in a folder: each entry within it is visited, children before siblings.
CREATE OR REPLACE FUNCTION public.bytes_within(folder text)
 RETURNS bigint
 LANGUAGE plpgsql
 STABLE
AS $function$
DECLARE
  here text := folder;
  total bigint := 0;
  bytes bigint;
  child text;
  sibling text;
  parent text;
BEGIN
  LOOP
    SELECT entry.bytes, entry.child INTO STRICT bytes, child FROM entry WHERE entry.name = here;
    total := total + bytes;
    IF child IS NOT NULL THEN
      here := child;
      CONTINUE;
    END IF;
    LOOP
      IF here = folder THEN
        RETURN total;
      END IF;
      SELECT entry.sibling, entry.parent INTO STRICT sibling, parent FROM entry WHERE entry.name = here;
      EXIT WHEN sibling IS NOT NULL;
      here := parent;
    END LOOP;
    here := sibling;
  END LOOP;
END;
$function$
