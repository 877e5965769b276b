"""Queries that call a function for the rows of a table `calls`, by fixed formulas: what `away inline` is tried on."""

import csv
import io
from dataclasses import dataclass, replace

from cases import Case, folder_cases

PRIME = 1000003  # the ids of fewer calls differ, and aren't in the order of the rows
LARGEST = "9223372036854775807"  # of which three times one more is no bigint
PIECES = ("bicycle", "frame", "wheel", "rim", "spoke", "saddle", "\\N")
WORDS = ("", "away", "a,b", 'say "hi"', "\\N", "größer", "two words")
ZONES = ("town", "land", "\\N", "sea", "moon")

POSTAGE = """CREATE FUNCTION public.postage_of(a_zone text, grams bigint) RETURNS bigint LANGUAGE plpgsql STABLE AS $$
DECLARE
  cents bigint;
  days bigint;
BEGIN
  SELECT postage.cents, postage.days INTO cents, days
  FROM postage
  WHERE postage.zone = a_zone AND postage.most >= grams
  ORDER BY postage.most
  LIMIT 1;
  IF cents IS NULL THEN
    RETURN -1;
  END IF;
  RETURN cents * 100 + days;
END;
$$;
"""
PRIMES = """CREATE FUNCTION public.is_prime(n integer) RETURNS boolean LANGUAGE plpgsql IMMUTABLE AS $$
DECLARE
  divisor integer := 2;
BEGIN
  WHILE divisor <= n / divisor LOOP
    IF n % divisor = 0 THEN
      RETURN FALSE;
    END IF;
    divisor := divisor + 1;
  END LOOP;
  RETURN n > 1;
END;
$$;
"""
SHARE = "CREATE FUNCTION public.share(n bigint) RETURNS bigint LANGUAGE plpgsql AS $$ BEGIN RETURN 10 / n; END; $$;\n"


@dataclass
class Calling:
    name: str
    case: Case  # with a table `calls` beside its own
    query: str
    parameters: tuple = ()  # of the query: the type and the word of each
    batched: bool = False  # whether the query has the rows that a batch of `calls` has
    instead: str = ""  # what the written query answers where the query itself doesn't fault


def calling_queries(count):
    """Ten queries over so many calls, and two that fault."""
    cases = {case.name: case for case in folder_cases()}
    collatz = _over(cases["collatz"], {"n": "bigint"}, _numbers(count))
    divisor = _over(cases["gcd"], {"a": "bigint", "b": "bigint"}, _pairs(count))
    pieces = [[PIECES[i % 7], PIECES[i // 7 % 7]] for i in range(count)]
    padded = [[WORDS[i % 7], "\\N" if i % 13 == 12 else str(i % 17)] for i in range(count)]
    return [
        _each("collatz", collatz, "collatz(calls.n)"),
        _each("divisor", divisor, "common_divisor(calls.a, calls.b)"),
        _each("postage", _postage(count), "postage_of(calls.zone, calls.grams)"),
        _each("pieces", _over(cases["parts"], {"whole": "text", "piece": "text"}, pieces),
              "count_pieces(calls.whole, calls.piece)"),
        Calling("padded", _over(cases["padded"], {"word": "text", "width": "bigint"}, padded),
                "SELECT calls.id, '<' || padded(calls.word, calls.width) || '>' AS shown FROM calls"),
        Calling("two", divisor, "SELECT common_divisor(calls.a, calls.b) - common_divisor(calls.b, calls.a + 1),"
                " calls.id FROM calls ORDER BY 2 * calls.id"),
        Calling("kept", collatz, "SELECT calls.id, collatz(calls.n) AS steps FROM calls"
                " WHERE calls.n % 7 = CAST($1 AS bigint) ORDER BY calls.n DESC, calls.id LIMIT 50", (("bigint", "3"),)),
        Calling("arm", divisor, "SELECT calls.id, CASE WHEN calls.a < calls.b THEN common_divisor(calls.a, calls.b)"
                " ELSE -1 END FROM calls"),
        Calling("coalesce", divisor, "SELECT calls.id, COALESCE(common_divisor(calls.a, calls.b), calls.a, calls.b, 0)"
                " FROM calls"),
        Calling("joined", _primes(count), "SELECT calls.id, grade.name, CASE WHEN is_prime(calls.n + grade.more)"
                " THEN 'prime' WHEN calls.n IS NULL THEN 'unknown' ELSE 'composite' END FROM calls, grade"
                " WHERE calls.n IS NULL OR calls.n % 2 = (SELECT min(other.more) FROM grade AS other) % 2"),
        *_faulting(cases["collatz"], count),
    ]


def _faulting(case, count):
    """A call that faults, and one that would in an arm that isn't taken: at the first row, since PostgreSQL fills the
    recursive table only as far as its rows are asked for."""
    overflow = _over(case, {"n": "bigint"}, _numbers(count) + [[LARGEST]])
    guarded = _over(replace(case, function=SHARE), {"n": "bigint"}, [[str(i)] for i in range(count)])
    return [
        Calling("overflow", overflow, "SELECT calls.id, collatz(calls.n) FROM calls"),
        Calling("guarded", guarded, "SELECT calls.id, CASE WHEN calls.n = 0 THEN 0 ELSE share(calls.n) END FROM calls",
                instead="fault 22012"),
    ]


def _each(name, case, call):
    """The query with the rows of a batch."""
    return Calling(name, case, f"SELECT calls.id, {call} FROM calls ORDER BY calls.id", batched=True)


def _numbers(count):
    return [["\\N" if i % 100 == 99 else str(31 * i % 100 + 1)] for i in range(count)]


def _pairs(count):
    rows = []
    for i in range(count):
        a, b = 31 * i % 101, 53 * i % 97
        rows.append(["\\N" if i % 10 == 9 else str(-a if i % 7 == 3 else a), "\\N" if i % 10 == 4 else str(b)])
    return rows


def _postage(count):
    schema = "CREATE TABLE public.postage (zone text, most bigint, cents bigint, days bigint);\n"
    rates = ["zone,most,cents,days", "town,50,85,1", "town,1000,270,1", "land,50,95,2", "land,500,180,2",
             "land,2000,549,3", "sea,2000,1499,\\N"]
    rows = [[ZONES[i % 5], "\\N" if i % 50 == 49 else str(37 * i % 2500)] for i in range(count)]
    return _over(Case("postage", schema, POSTAGE, {"postage": "\n".join(rates) + "\n"}, []),
                 {"zone": "text", "grams": "bigint"}, rows)


def _primes(count):
    case = Case("primes", "CREATE TABLE public.grade (name text, more integer);\n", PRIMES,
                {"grade": "name,more\nodd,1\nnext,3\n"}, [])
    return _over(case, {"n": "integer"}, [["\\N" if i % 100 == 99 else str(7 * i)] for i in range(count)])


def _over(case, columns, rows):
    """The case with such a table of calls."""
    text = io.StringIO()
    lines = csv.writer(text, lineterminator="\n")
    lines.writerow(["id", *columns])
    lines.writerows([str(7919 * i % PRIME), *row] for i, row in enumerate(rows))
    typed = "".join(f", {column} {kind}" for column, kind in columns.items())
    return replace(case, schema=f"{case.schema}\nCREATE TABLE public.calls (id bigint{typed});\n",
                   tables={**case.tables, "calls": text.getvalue()})
