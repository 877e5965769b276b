"""The limits of what is read, each at its number and one above, with the line that is answered."""

from case import CERTIFY, COMPILE, EXPAND, FILE, FN, FUNCTION, INLINE, NULL, SQL, TEXT, UNROLL, Case, function, one_row

DEEP = (8192, 4096)  # KiB of stack for queries of 256 pairs in one another
AROUND = {
    "blocks": ("BEGIN ", "END; "),
    "loops": ("LOOP ", "END LOOP; "),
    "WHILE loops": ("WHILE TRUE LOOP ", "END LOOP; "),
    "FOR loops": ("FOR i IN 1..1 LOOP ", "END LOOP; "),
    "IFs": ("IF TRUE THEN ", "END IF; "),
    "ELSEs": ("IF FALSE THEN ELSE ", "END IF; "),
    "CASEs": ("CASE WHEN TRUE THEN ", "END CASE; "),
}
AROUND_VALUE = {
    "parentheses": ("(", ")"),
    "CASE expressions": ("CASE WHEN TRUE THEN ", " END"),
    "subqueries": ("(SELECT ", ")"),
    "negations": ("(- ", ")"),
    "COALESCEs": ("COALESCE(", ")"),
    "EXISTS": ("CASE WHEN EXISTS (SELECT ", ") THEN 1 END"),
}


def of_function(name, text, line, *words):
    """A function that is run; where it answers, it has to compile as well."""
    yield Case(name, {"f.sql": text}, [*FN, *words], line)
    if line.startswith("value"):
        yield Case(f"{name}, compiled", {"f.sql": text}, COMPILE, status=0)
        yield Case(f"{name}, certified", {"f.sql": text}, CERTIFY, status=0)
        yield Case(f"{name}, unrolled", {"f.sql": text}, UNROLL, status=0)


def nesting():
    for depth, line in ((63, "value 1"), (64, "refused f.sql X5 nesting 65")):
        for name, (begin, end) in AROUND.items():
            text = function(begin * depth + "RETURN 1; " + end * depth)
            yield from of_function(f"{depth} {name} in one another and a block", text, line)
        for name in ("parentheses", "CASE expressions", "subqueries"):
            begin, end = AROUND_VALUE[name]
            text = function(f"RETURN {begin * depth}1{end * depth};")
            yield from of_function(f"{depth} {name} in one another and a block", text, line)
    both = "FOR i IN 1..1 LOOP " * 63 + "END LOOP; " * 63
    yield from of_function("63 FOR loops in one another and one beside them", function(f"{both}FOR i IN 1..1 LOOP END LOOP; RETURN 1;"), "value 1")
    for depth, line in ((64, None), (255, None), (256, None), (257, "refused q.sql X5 nesting 257")):
        stacks = DEEP if depth in (255, 256) else (8192, 1024)
        for name in ("parentheses", "subqueries", "negations", "COALESCEs"):
            begin, end = AROUND_VALUE[name]
            sign = "-" if name == "negations" and depth % 2 else ""
            yield Case(f"{depth} {name} in a query", {"q.sql": f"SELECT {begin * depth}1{end * depth}{NULL}"}, SQL, line or f"value {sign}1", stacks=stacks)
        begin, end = AROUND_VALUE["CASE expressions"]
        yield Case(f"{depth} CASE expressions in a query", {"q.sql": f"SELECT {begin * depth}1{end * depth}{NULL}"}, SQL, line or "value 1", stacks=stacks)
        items = "(SELECT t.v FROM " * depth + "t" + ") AS t" * depth
        yield Case(f"{depth} FROMs in a query", one_row(f"SELECT t.v{NULL} FROM {items}"), SQL, line or "value 1", stacks=stacks)
        line = "refused s.sql X5 nesting 257" if depth == 257 else "refused s.sql X3"
        yield Case(f"{depth} parentheses in a schema", {"s.sql": "(" * depth}, COMPILE, line)


def counts():
    for count, line in ((498, "value 1"), (499, "refused f.sql X5 nodes 501")):
        yield from of_function(f"{count + 2} nodes", function("NULL; " * count + "RETURN 1;"), line)
    arms = "ELSIF FALSE THEN NULL; " * 247
    yield from of_function("500 nodes, nearly all in one IF", function(f"IF FALSE THEN NULL; {arms}END IF; RETURN 1;"), "value 1")
    for count, line in ((64, "value 1"), (65, "refused f.sql X5 variables 65")):
        declared = "DECLARE " + "".join(f"v{i} bigint := 1; " for i in range(count))
        yield from of_function(f"{count} declarations", function(f"RETURN v{count - 1};", declared=declared), line)
        given = ", ".join(f"v{i} bigint" for i in range(count))
        yield from of_function(f"{count} parameters", function(f"RETURN v{count - 1};", given), line, *["1"] * count)
    for count, line in ((64, "value 1"), (65, "refused f.sql X5 loops 65")):
        yield from of_function(f"{count} FOR loops", function("FOR i IN 1..1 LOOP END LOOP; " * count + "RETURN 1;"), line)
    for number, line in ((64, "value 1"), (65, "refused q.sql X2 12")):
        yield Case(f"parameter {number}", {"q.sql": f"SELECT CAST(${number} AS bigint){NULL}"}, [*SQL, *["1"] * 64], line)
    for count, line in ((64, "value 1"), (65, "usage")):
        yield Case(f"{count} arguments", {"q.sql": f"SELECT 1{NULL}"}, [*SQL, *["1"] * count], line)
    for bound, line in ((2**64 - 1, "value 1"), (2**64, "usage")):
        yield Case(f"bound {bound}", {"q.sql": f"SELECT 1{NULL}"}, ["sql", str(bound), *SQL[2:]], line)
    for number, line in (("9223372036854775808", "refused q.sql X3"), ("9223372036854775809", "refused q.sql X2 7")):
        yield Case(f"integer {number}", {"q.sql": f"SELECT {number}{NULL}"}, SQL, line)


def lengths():
    for length in (63, 64):
        name = "n" * length
        text = function(f"RETURN {name};", f"{name} bigint")
        line = "value 1" if length == 63 else f"refused f.sql X2 {text.index(name)}"
        yield from of_function(f"a name of {length} letters", text, line, "1")
    for size, line in ((FUNCTION, "value 1"), (FUNCTION + 1, "refused f.sql LONG")):
        yield from of_function(f"a function's file of {size} bytes", function("RETURN 1;").ljust(size), line)
    for length in (TEXT, TEXT + 1):
        def line(refusal):
            return f"value {length}" if length == TEXT else refusal

        text = "x" * length
        yield Case(f"a literal of {length} bytes", {"q.sql": f"SELECT length('{text}'){NULL}"}, SQL, line("refused q.sql X2 14"))
        files = {"s.sql": "CREATE TABLE t (v text);", "d/t.csv": f"v\n{text}\n", "q.sql": f"SELECT length(t.v){NULL} FROM t"}
        yield Case(f"a field of {length} bytes", files, SQL, line("refused d/t.csv Z3 1 1"))
        yield Case(f"a joined text of {length} bytes", {"q.sql": f"SELECT length('{text[1:]}' || 'x'){NULL}"}, SQL, line("fault 54000"))
    for size in (FILE, FILE + 1):
        query = f"SELECT 1{NULL}"
        for file, text in (("s.sql", ""), ("q.sql", query)):
            line = "value 1" if size == FILE else f"refused {file} LONG"
            yield Case(f"{file} of {size} bytes", {"q.sql": query, file: text.ljust(size)}, SQL, line)
        files = {"s.sql": "CREATE TABLE t (v text);", "d/t.csv": "v\n".ljust(size), "q.sql": query}
        yield Case(f"a table's file of {size} bytes, one field", files, SQL, "refused d/t.csv " + ("Z3 1 1" if size == FILE else "LONG"))
        files = {"f.sql": function("RETURN 1;"), "q.sql": query, "c.json": "{}".ljust(size)}
        line = "C2 goto.entry" if size == FILE else "LONG"
        yield Case(f"a certificate of {size} bytes", files, ["check", "s.sql", "f.sql", "q.sql", "c.json"], f"refused c.json {line}")


def of_program(name, main, callees, line=None):
    """A function that `expand` writes, or that exceeds a limit where its calls are expanded."""
    files = {f"g{i}.sql": callee.replace("FUNCTION f", f"FUNCTION g{i}", 1) for i, callee in enumerate(callees)}
    yield Case(f"{name}, expanded", {"f.sql": main, **files}, [*EXPAND, *files], line, 0)


def expanded():
    """What `expand` would write, at each limit on what is read of a function and above it."""
    chain = [function(f"RETURN g{i}();") for i in range(1, 20)] + [function("RETURN 1;")]
    for depth, line in ((2, None), (3, "refused f.sql E4 nesting 65")):
        yield from of_program(f"20 calls in one another and in {depth} blocks", function("BEGIN " * depth + "RETURN g0();" + "END; " * depth), chain, line)
    for count, line in ((62, None), (63, "refused f.sql E4 nodes 501")):
        yield from of_program(f"{count} statements and 4 calls of 101", function("NULL; " * count + "x := g0(); " * 4, declared="DECLARE x bigint;"), [function("NULL; " * 100 + "RETURN 1;")], line)
    for count, line in ((21, None), (22, "refused f.sql E4 variables 67")):
        yield from of_program(f"{count} calls with two variables and a result", function("x := g0(x); " * count, "x bigint"), [function("RETURN v;", "a bigint", "DECLARE v bigint := a;")], line)
    for count, line in ((32, None), (33, "refused f.sql E4 loops 66")):
        yield from of_program(f"{count} calls with two FOR loops", function("RETURN g0(); " * count), [function("FOR i IN 1..1 LOOP NULL; END LOOP; " * 2 + "RETURN 1;")], line)
    for length, line in ((524096, None), (524097, "refused f.sql E4 bytes 1048577"), (600000, "refused f.sql E4 bytes 1200383")):
        main = function("x := g0(); RETURN g0();", declared="DECLARE x text;", result="text")
        yield from of_program(f"a text of {length} bytes twice", main, [function(f"RETURN '{'x' * length}';", result="text")], line)
    for depth, found in ((18, 11888888888888888861), (19, 2**64 - 1)):
        tens = [function(f"RETURN g{i}(); " * 10) for i in range(1, depth)] + [function("RETURN 1;")]
        yield from of_program(f"{depth} levels of ten calls each", function("RETURN g0(); " * 10), tens, f"refused f.sql E4 nodes {found}")


def inlined():
    """What `inline` would write, at the nesting of what is read and above it: a call's argument stands within two pairs there."""
    callee = function("RETURN a;", "a bigint")
    for depth, line in ((254, None), (255, "refused q.sql I4 257")):
        for name in ("CASE expressions", "subqueries", "COALESCEs"):
            begin, end = AROUND_VALUE[name]
            files = {"q.sql": f"SELECT f({begin * depth}1{end * depth})", "f.sql": callee}
            yield Case(f"a call of {depth} {name} in one another, inlined", files, INLINE, line, 0, stacks=DEEP)
        files = {"q.sql": "SELECT " + "CASE WHEN TRUE THEN " * depth + "f(1)" + " END" * depth, "f.sql": callee}
        yield Case(f"a call in {depth} CASE expressions, inlined", files, INLINE, line, 0, stacks=DEEP)


def words():
    """Arguments as long as Linux takes them, which is less than a text may be: 131,071 bytes each, and together a quarter of the stack, at most 6 MiB."""
    each = [f"CAST(${i} AS text)" for i in range(1, 65)]
    yield Case("an argument of 131071 bytes", {"q.sql": f"SELECT length({each[0]}){NULL}"}, [*SQL, "x" * 131071], "value 131071", stacks=(8192,))
    query = "SELECT " + " + ".join(f"length({it})" for it in each) + NULL
    yield Case("64 arguments of 96000 bytes", {"q.sql": query}, [*SQL, *["x" * 96000] * 64], "value 6144000", stacks=(32768,))
    query = "SELECT " + " || ".join(each) + NULL
    yield Case("64 arguments of 30000 bytes, joined", {"q.sql": query}, [*SQL, *["x" * 30000] * 64], "fault 54000", stacks=(8192,))


def limits():
    for part in (nesting, counts, lengths, expanded, inlined, words):
        yield from part()
