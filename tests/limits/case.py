"""A run of away over files that are made for it, and the parts that such files are made of."""

import dataclasses
import typing

FILE, FUNCTION, TEXT = 67108864, 1048576, 1048576  # bytes of a file, of a function's file, of a text value
NULL = ", CAST(NULL AS text)"  # the second column of a query that answers without a fault
TABLE = "CREATE TABLE t (v bigint);"
FN = ["fn", "100", "s.sql", "f.sql", "d"]
SQL = ["sql", "100", "s.sql", "q.sql", "d"]
COMPILE = ["compile", "s.sql", "f.sql"]
INLINE = ["inline", "s.sql", "q.sql", "f.sql"]
EXPAND = ["expand", "s.sql", "f.sql"]
CERTIFY = ["certify", "s.sql", "f.sql"]
UNROLL = ["unroll", "64", "s.sql", "f.sql"]
CHECK = ["check", "s.sql", "f.sql", "q.sql", "c.json"]


@dataclasses.dataclass
class Case:
    name: str
    files: dict
    words: list
    line: typing.Optional[str] = None  # the line that is answered; None: any output
    status: typing.Optional[int] = None  # the status where there is no line, or 5; None: any
    stacks: tuple = (8192, 1024)  # in KiB
    memory: int = 1 << 30


def function(body, parameters="", declared="", result="bigint"):
    return f"CREATE FUNCTION f({parameters}) RETURNS {result} LANGUAGE plpgsql AS $$ {declared} BEGIN {body} END; $$;"


def filled(unit, size, head="", tail=""):
    """So many units between head and tail that the text has at most size bytes."""
    return head + unit * ((size - len(head) - len(tail)) // len(unit)) + tail


def one_row(query):
    """The files of a query over a table of one row."""
    return {"s.sql": TABLE, "d/t.csv": "v\n1\n", "q.sql": query}
