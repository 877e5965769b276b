CREATE TABLE public.edge (
    source text NOT NULL,
    low text NOT NULL,
    high text NOT NULL,
    target text NOT NULL
);
CREATE TABLE public.final (
    name text NOT NULL
);
