CREATE FUNCTION f(p0 bigint, p1 bigint, p2 bigint, p3 bigint, p4 bigint, p5 bigint, p6 bigint, p7 bigint, p8 bigint, p9 bigint, p10 bigint, p11 bigint, p12 bigint, p13 bigint, p14 bigint, p15 bigint, p16 bigint, p17 bigint, p18 bigint, p19 bigint, p20 bigint, p21 bigint, p22 bigint, p23 bigint, p24 bigint, p25 bigint, p26 bigint, p27 bigint, p28 bigint, p29 bigint, p30 bigint, p31 bigint, p32 bigint) RETURNS bigint LANGUAGE plpgsql AS $$
BEGIN RETURN 1; END;
$$;
