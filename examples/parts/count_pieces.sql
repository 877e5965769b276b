-- How many pieces of a kind there are in one whole, from the piece up.
CREATE OR REPLACE FUNCTION public.count_pieces(a_whole text, a_piece text)
 RETURNS bigint
 LANGUAGE plpgsql
 STABLE
AS $function$
DECLARE
  found text := a_piece;
  total bigint := 1;
BEGIN
  WHILE found <> a_whole LOOP
    total := total * (SELECT part.number FROM part WHERE part.piece = found);
    found := (SELECT part.whole FROM part WHERE part.piece = found);
  END LOOP;
  RETURN total;
END;
$function$
