CREATE TABLE public.part (
    whole text NOT NULL,
    piece text NOT NULL,
    number bigint NOT NULL
);
