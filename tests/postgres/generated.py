"""The cases of `away demo N`, made a second time: a schema, a table, a function and its arguments, drawn from N alone.

This is a port of the program's own generator for this test, which needs the texts; the command prints none of them.
"""

SCHEMA = "CREATE TABLE route (src bigint, dst bigint, cost bigint);\n"
HEAD = ("CREATE FUNCTION public.demo(a bigint, b bigint) RETURNS bigint LANGUAGE plpgsql AS $$ "
        "DECLARE v0 bigint := a; v1 bigint := b; v2 bigint := 0; v3 bigint := 1; t bigint := 0; "
        "BEGIN WHILE t < 20 LOOP")
TAIL = "t := t + 1; END LOOP; RETURN v0 + v1 + v2 + v3; END; $$;"
STATEMENTS = (
    "v{i} := v{j} + {c};",
    "v{i} := v{j} * {c} % 1000000;",
    "IF v{i} > v{j} THEN v{i} := v{i} - v{j}; ELSE v{j} := v{j} + 1; END IF;",
    "FOR k IN 1..{c} LOOP v{i} := v{i} + k; EXIT WHEN v{i} % 7 = 3; END LOOP;",
    "v{i} := COALESCE((SELECT max(r.cost) FROM route r WHERE r.src = v{j} % 10), 0);",
)


class Draws:
    def __init__(self, number):
        self.state = number

    def below(self, bound):
        self.state = (6364136223846793005 * self.state + 1442695040888963407) % 2**64
        return (self.state >> 33) % bound


def generated_case(number):
    """The texts of the table and of the function, and the two arguments."""
    draws = Draws(number)
    lines = ["src,dst,cost"]
    for _ in range(50 + draws.below(50)):
        lines.append(",".join(str(draws.below(bound)) for bound in (10, 10, 1000)))
    arguments = [str(draws.below(1000)), str(draws.below(1000))]
    statements = []
    for _ in range(40 + draws.below(24)):
        kind, i, j, c = draws.below(5), draws.below(4), draws.below(4), 1 + draws.below(99)
        statements.append(STATEMENTS[kind].format(i=i, j=j, c=c))
    return "\n".join(lines) + "\n", "\n".join([HEAD, *statements, TAIL]) + "\n", arguments
