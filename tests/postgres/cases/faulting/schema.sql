CREATE TABLE public.pair (
    k bigint NOT NULL,
    v text
);
