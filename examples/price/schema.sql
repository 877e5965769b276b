CREATE TABLE public.price (
    article text NOT NULL,
    since bigint NOT NULL,
    cents bigint NOT NULL
);
CREATE TABLE public.rebate (
    pieces bigint NOT NULL,
    percent bigint NOT NULL
);
