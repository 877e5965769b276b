CREATE TABLE public.part (
    whole text NOT NULL,
    piece text NOT NULL,
    number bigint NOT NULL
);
CREATE TABLE public.edge (
    id bigint NOT NULL,
    following bigint NOT NULL,
    cost bigint NOT NULL
);
CREATE TABLE public.policy (
    place bigint NOT NULL,
    action bigint NOT NULL
);
CREATE TABLE public.slip (
    place bigint NOT NULL,
    action bigint NOT NULL,
    low bigint NOT NULL,
    high bigint NOT NULL,
    target bigint NOT NULL
);
CREATE TABLE public.cell (
    place bigint NOT NULL,
    reward bigint NOT NULL
);
