INSERT INTO part SELECT 'p' || (i / 2), 'p' || i, 1 + i % 3 FROM generate_series(2, 20000) AS i;
CREATE INDEX ON part (piece);
INSERT INTO edge SELECT i, (i * 7919 + 13) % 10000, i % 97 FROM generate_series(0, 9999) AS i;
CREATE UNIQUE INDEX ON edge (id);
INSERT INTO policy SELECT i, i % 4 FROM generate_series(0, 399) AS i;
CREATE UNIQUE INDEX ON policy (place);
INSERT INTO slip
SELECT i, a, (ARRAY[0, 80, 90])[r], (ARRAY[79, 89, 99])[r], (i + (ARRAY[1, 20, 399, 380])[a + 1] + (ARRAY[0, 1, 20])[r]) % 400
FROM generate_series(0, 399) AS i, generate_series(0, 3) AS a, generate_series(1, 3) AS r;
CREATE INDEX ON slip (place, action);
INSERT INTO cell SELECT i, (i * 37) % 11 - 5 FROM generate_series(0, 399) AS i;
CREATE UNIQUE INDEX ON cell (place);
ANALYZE;
