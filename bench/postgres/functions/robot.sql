CREATE OR REPLACE FUNCTION public.robot(origin bigint, win bigint, lose bigint, steps bigint) RETURNS bigint
LANGUAGE plpgsql STABLE AS $$
DECLARE
  reward bigint := 0;
  location bigint := origin;
  movement bigint;
  roll bigint;
  step bigint := 1;
BEGIN
  WHILE step <= steps LOOP
    movement := (SELECT policy.action FROM policy WHERE policy.place = location);
    roll := (step * 7919 + origin * 31) % 100;
    location := (SELECT slip.target FROM slip
                 WHERE slip.place = location AND slip.action = movement AND roll BETWEEN slip.low AND slip.high);
    reward := reward + (SELECT cell.reward FROM cell WHERE cell.place = location);
    IF reward >= win OR reward <= lose THEN
      RETURN step * CASE WHEN reward > 0 THEN 1 ELSE -1 END;
    END IF;
    step := step + 1;
  END LOOP;
  RETURN 0;
END;
$$;
