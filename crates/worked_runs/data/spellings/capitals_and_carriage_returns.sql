create function PUBLIC.F(a_1 BIGINT)
returns bigint language PLPGSQL as $$begin return A_1;end;$$;
