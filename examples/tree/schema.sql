CREATE TABLE public.entry (
    name text NOT NULL,
    bytes bigint NOT NULL,
    parent text,
    child text,
    sibling text
);
