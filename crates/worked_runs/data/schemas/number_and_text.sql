CREATE TABLE t (k bigint NOT NULL, v text); CREATE TABLE public.route (src bigint);
