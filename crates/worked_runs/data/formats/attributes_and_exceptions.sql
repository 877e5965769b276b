create or replace function PUBLIC.F(IN A int8) returns bool
  COST 5 IMMUTABLE STRICT LANGUAGE 'plpgsql' AS $b$
<<T>>
BEGIN
  /* no */ RAISE 'no';
  RAISE sqlstate '22012';
END t $b$
