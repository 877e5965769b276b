-- A call of collatz in each row: id tells the calls apart.
CREATE TABLE calls (
    id bigint,
    n bigint
);
