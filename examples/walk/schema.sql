CREATE TABLE public.cell (
    place text NOT NULL,
    reward bigint NOT NULL,
    direction text
);
CREATE TABLE public.step (
    place text NOT NULL,
    direction text NOT NULL,
    dice bigint NOT NULL,
    target text NOT NULL
);
