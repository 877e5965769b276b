CREATE TABLE nums (
    n bigint
);
