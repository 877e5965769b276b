"""Functions over integer and bigint together, drawn from a number: operations at the edges of both, conversions, casts.

An even number draws a function whose only fault can be 22003, an odd one a function whose only fault can be 22012, and
each statement keeps what its variable held: PostgreSQL may reorder two faults of a query, and drop a fault of a value
that nothing uses.
"""

from generated import Draws

SCHEMA = "CREATE TABLE route (src integer, dst integer NOT NULL, cost bigint);\n"
HEAD = ("CREATE FUNCTION public.counted(a integer, b int4, c bigint) RETURNS {result} LANGUAGE plpgsql AS $$ "
        "DECLARE v0 integer := a; v1 int := b; v2 integer := {start}; w bigint := c; t integer := 0; "
        "BEGIN WHILE t < {turns} LOOP")
TAIL = "t := t + 1; END LOOP; RETURN {returned}; END; $$;"
RANGED = (
    "v{i} := v{i} + v{j} * {c};",
    "v{i} := v{i} - v{j} % {c};",
    "v{i} := -v{i} + {c};",
    "v{i} := v{i} / 4 + w % {c};",
    "v{i} := v{i} / 2 + CAST(w / {c} AS integer);",
    "w := w + v{i} * v{j};",
    "w := w + CAST(v{i} AS bigint) * v{j};",
    "w := w / 2 - {wide} + v{i};",
    "w := w + GREATEST(v{i}, w / {c}) - LEAST(v{j}, {c});",
    "w := w + CASE WHEN v{i} IN ({c}, {wide}, w) THEN v{j} ELSE w / 3 END;",
    "IF v{i} < w THEN v{i} := v{i} + {c}; ELSE w := w - v{i}; END IF;",
    "v{i} := v{i} + length('away') * {c};",
    "w := w + length(substr('integers', v{j} % 5 + 1, 3));",
    "v{i} := v{i} / 2 + COALESCE((SELECT max(r.dst) FROM route r WHERE r.src = v{j} % 10), 0);",
    "SELECT w / 2 + COALESCE(CAST(sum(r.cost) AS bigint), 0), v{i} / 2 + count(*) INTO w, v{i} FROM route r WHERE r.src = v{j} % 10;",
    "SELECT w / 2 + COALESCE(sum(r.dst), v{j}) INTO w FROM route r WHERE r.dst BETWEEN v{i} % 10 AND w % 10;",
)
DIVIDED = (
    "v{i} := (v{i} % 1000 + v{j} % 1000) / 2;",
    "v{i} := v{i} % 1000 + {c} / (v{j} % 7 + {d});",
    "w := w % 1000000 + v{i} % (w % 5 + {d});",
    "w := w % 1000000 + CAST(v{i} % 1000 AS bigint) * {c} / ({d} + v{j} % 3);",
    "IF v{i} % 10 <> 0 THEN v{j} := v{j} % 1000 + 1000 / (v{i} % 10); END IF;",
    "v{i} := v{i} % 1000 + COALESCE((SELECT max(r.dst / (r.src + {d})) FROM route r WHERE r.src = v{j} % 10), 1);",
)
EDGES = (-2147483648, -2147483647, -65537, -46341, -1, 0, 1, 2, 7, 46340, 46341, 65536, 1073741824, 2147483646, 2147483647)
WIDE = (-9223372036854775808, -2147483649, -2147483648, -1, 0, 1, 2147483647, 2147483648, 4294967296, 9223372036854775807)


def _argument(draws, edges, bound):
    return edges[draws.below(len(edges))] if draws.below(3) == 0 else draws.below(bound) - bound // 2


def integer_case(number):
    """The texts of the schema, the table and the function, and three lists of arguments."""
    draws = Draws(number)
    rows = ["src,dst,cost"]
    for _ in range(20 + draws.below(20)):
        rows.append(",".join(str(draws.below(bound)) for bound in (10, 10, 5000000000)))
    divides = number % 2 == 1
    statements, kinds = [], DIVIDED if divides else RANGED
    for _ in range(4 + draws.below(16)):
        i, j, c, d = draws.below(3), draws.below(3), 1 + draws.below(99), draws.below(8) - 3
        wide = 2147483648 + draws.below(3000000000)
        statements.append(kinds[draws.below(len(kinds))].format(i=i, j=j, c=c, d=f"({d})", wide=wide))
    narrow = draws.below(2) == 0
    head = HEAD.format(result="integer" if narrow else "bigint", start=draws.below(100), turns=1 + draws.below(5))
    returned = "v0 / 4 + v1 / 4 + v2 / 4 + w % 1000" if narrow else "w % 1000000 + v0 + CAST(v1 AS bigint) + v2 / 2"
    lists = []
    for _ in range(3):
        wide = draws.below(2000) if divides else _argument(draws, WIDE, 10000)
        lists.append([str(_argument(draws, (0, 1, -1) if divides else EDGES, 100)) for _ in range(2)] + [str(wide)])
    return SCHEMA, "\n".join(rows) + "\n", "\n".join([head, *statements, TAIL.format(returned=returned)]) + "\n", lists
