CREATE TABLE public.pack (
    article text NOT NULL,
    size bigint NOT NULL,
    price bigint NOT NULL
);
