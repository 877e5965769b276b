"""Inputs as long, as deep or as many as a file may hold: each is answered, or memory is wanting."""

import pathlib

from case import CERTIFY, CHECK, COMPILE, FILE, FN, FUNCTION, NULL, SQL, TABLE, Case, filled, function, one_row

TOP = pathlib.Path(__file__).resolve().parents[2]
SMALL = (1024,)  # KiB of stack
# What stands again and again, and the text before and behind it.
IN_QUERIES = {
    "sums": ("+1", "SELECT 1", NULL),
    "ORs": (" OR FALSE", "SELECT FALSE", NULL),
    "ANDs": (" AND TRUE", "SELECT TRUE", NULL),
    "joins": ("||'a'", "SELECT ''", NULL),
    "elements": (",1", "SELECT 1 IN (0", f"){NULL}"),
    "arms": (" WHEN FALSE THEN 1", "SELECT CASE", f" END{NULL}"),
    "columns": (",1", "SELECT 1", ""),
    "operands": (",1", "SELECT COALESCE(1", f"){NULL}"),
    "selects": (f" UNION ALL SELECT 1{NULL}", f"SELECT 1{NULL}", ""),
    "items": (",t t1", f"SELECT 1{NULL} FROM t", ""),
    "keys": (",t.v", f"SELECT t.v{NULL} FROM t ORDER BY t.v", ""),
    "first terms": (" UNION ALL SELECT 1", "WITH RECURSIVE r(i) AS (SELECT 1", f" UNION ALL SELECT r.i FROM r) SELECT r.i{NULL} FROM r"),
}
IN_FUNCTIONS = {
    "sums": ("+1", "RETURN 1", ";"),
    "ORs": (" OR a=2", "IF a=0", " THEN NULL; END IF; RETURN 1;"),
    "elements": (",2", "IF a IN (0", ") THEN NULL; END IF; RETURN 1;"),
    "arms": (" WHEN a=2 THEN 1", "RETURN CASE", " END;"),
    "comments": ("/*", "RETURN 1;", ""),
    "items": (",t t1", "RETURN (SELECT count(*) FROM t", ");"),
    "columns": (",1", "RETURN (SELECT 1 WHERE EXISTS (SELECT 1", "));"),
}


def schemas():
    texts = {
        "tables": lambda: "".join(f"CREATE TABLE a{i} (b bigint);\n" for i in range(FILE // 34)),
        "columns": lambda: "CREATE TABLE t (" + ", ".join(f"a{i} bigint" for i in range(FILE // 20)) + ");",
        "equal tables": lambda: filled(TABLE, FILE),
        "comments": lambda: filled("/*", FILE),
        "closed comments": lambda: "/*" * (FILE // 4) + "*/" * (FILE // 4),
        "parentheses": lambda: "(" * FILE,
        "pairs": lambda: "()" * (FILE // 2),
        "quotes": lambda: "'" * FILE,
        "words": lambda: "a " * (FILE // 2),
        "dollar quotes": lambda: "$a$" * (FILE // 3),
    }
    for name, text in texts.items():
        yield Case(f"64 MiB of {name} as schema", {"s.sql": text(), "f.sql": function("RETURN 1;")}, COMPILE, stacks=SMALL)
    for count in (1000, 10000, 50000):
        text = "".join(f"CREATE TABLE a{i} (b bigint);\n" for i in range(count))
        yield Case(f"{count} tables", {"s.sql": text, "f.sql": function("RETURN 1;")}, COMPILE, status=0, stacks=SMALL)


def queries():
    for name, (unit, head, tail) in IN_QUERIES.items():
        for size in (FILE >> 6, FILE):
            yield Case(f"{size >> 20} MiB of {name} as query", one_row(filled(unit, size, head, tail)), SQL, stacks=SMALL)


def functions():
    for name, (unit, head, tail) in IN_FUNCTIONS.items():
        text = function(filled(unit, FUNCTION - 99, head, tail), "a bigint")
        for words in ([*FN, "1"], COMPILE, CERTIFY):
            yield Case(f"1 MiB of {name} as function, {words[0]}", {"s.sql": TABLE, "d/t.csv": "v\n1\n", "f.sql": text}, words, stacks=SMALL)


def certificates():
    texts = {
        "lists": lambda: "[" * FILE,
        "objects": lambda: '{"goto":' * (FILE // 8),
        "closed lists": lambda: "[" * (FILE // 2) + "]" * (FILE // 2),
        "digits": lambda: "1" * FILE,
        "one text": lambda: '"' + "a" * (FILE - 2) + '"',
        "numbers": lambda: filled(",1", FILE, '{"goto":{"entry":0,"end":1,"nodes":[1', "]}}"),
        "blocks": lambda: filled(',[false,null,["jump",1]]', FILE, '{"goto":{"entry":0,"end":1,"nodes":[1],"blocks":[[true,null,["jump",0]]', "]}}"),
    }
    sign = {"f.sql": (TOP / "examples/sign/sign_of.sql").read_text(), "q.sql": (TOP / "examples/sign/query.sql").read_text()}
    for name, text in texts.items():
        yield Case(f"64 MiB of {name} as certificate", {**sign, "c.json": text()}, CHECK, stacks=SMALL)


def tables():
    for name, unit in {"rows": "1\n", "fields": "1,", "quotes": '"', "empty lines": "\n", "CRs": "\r"}.items():
        files = {"s.sql": TABLE, "q.sql": f"SELECT count(*){NULL} FROM t", "d/t.csv": filled(unit, FILE, "v\n")}
        yield Case(f"64 MiB of {name} as table", files, SQL, stacks=SMALL)


def growth():
    ten = {"s.sql": TABLE, "d/t.csv": "v\n" + "1\n" * 10}
    squared = "SELECT t.v FROM t"
    for _ in range(4):
        squared = f"SELECT a.v FROM ({squared}) a, ({squared}) b"
    tenfold = f"WITH RECURSIVE r(i) AS (SELECT 1 UNION ALL SELECT r.i FROM r, t) SELECT r.i{NULL} FROM r"
    for memory in (1 << 30, 1 << 28, 1 << 26, 1 << 24):
        for name, query in (("rows squared four times", f"SELECT count(*){NULL} FROM ({squared}) a"), ("an iteration of ten times the rows", tenfold)):
            yield Case(f"{name}, within {memory >> 20} MiB", {**ten, "q.sql": query}, SQL, status=5, memory=memory)
    eightfold = f"WITH RECURSIVE r(i) AS (SELECT 1 UNION ALL SELECT r.i FROM r, t a, t b, t c) SELECT r.i{NULL} FROM r"
    two = {"s.sql": TABLE, "d/t.csv": "v\n1\n2\n", "q.sql": eightfold}
    yield Case("262,144 rows of four items, within 64 MiB", two, ["sql", "6", *SQL[2:]], "more", memory=1 << 26)
    doubled = f"WITH RECURSIVE r(i) AS (SELECT 'x' UNION ALL SELECT r.i || r.i FROM r) SELECT r.i{NULL} FROM r"
    yield Case("a text that doubles in a query", {"q.sql": doubled}, SQL, "fault 54000")
    body = function("LOOP a := a || a; END LOOP;", "a text", result="text")
    yield Case("a text that doubles in a function", {"f.sql": body}, [*FN, "x"], "fault 54000")
    for number in ("7", str(2**64 - 1)):
        yield Case(f"demo {number}", {}, ["demo", number], status=0)


def large_inputs():
    for part in (schemas, queries, functions, certificates, tables, growth):
        yield from part()
