"""What is run: a schema, a function, the tables' rows, and lists of arguments."""

import csv
import io
import pathlib
import re
import shlex
from dataclasses import dataclass

from generated import SCHEMA, generated_case
from integers import integer_case

HERE = pathlib.Path(__file__).resolve().parent
TOP = HERE.parent.parent


@dataclass
class Files:
    """The paths of a case's files, as words for away."""

    schema: str
    function: str
    tables: str


@dataclass
class Case:
    name: str
    schema: str
    function: str
    tables: dict  # each table's file, as text, by the table's name
    arguments: list  # lists of words, as `away fn` takes them
    number: int = None  # of `away demo`, where the case is one of its cases


def folder_cases():
    """The examples, and the cases beside this file, that hold a function and a list of arguments."""
    cases = []
    for folder in sorted((TOP / "examples").iterdir()) + sorted((HERE / "cases").iterdir()):
        functions = [path.read_text() for path in sorted(folder.glob("*.sql")) if _is_function(path.read_text())]
        if functions and (folder / "arguments").exists():
            cases.append(Case(
                name=folder.name,
                schema=(folder / "schema.sql").read_text(),
                function=functions[0],
                tables={path.stem: path.read_text() for path in sorted((folder / "tables").glob("*.csv"))},
                arguments=read_arguments((folder / "arguments").read_text()),
            ))
    return cases


def demo_cases(count):
    cases = []
    for number in range(count):
        table, function, arguments = generated_case(number)
        cases.append(Case(f"demo-{number}", SCHEMA, function, {"route": table}, [arguments], number))
    return cases


def integer_cases(count):
    cases = []
    for number in range(count):
        schema, table, function, lists = integer_case(number)
        cases.append(Case(f"integer-{number}", schema, function, {"route": table}, lists))
    return cases


def write_case(case, folder):
    """Writes the case's files into the folder."""
    paths = folder / "schema.sql", folder / "function.sql", folder / "tables"
    paths[0].write_text(case.schema)
    paths[1].write_text(case.function)
    paths[2].mkdir()
    for table, text in case.tables.items():
        (paths[2] / f"{table}.csv").write_text(text)
    return Files(*map(str, paths))


def read_arguments(text):
    """One list a line: words between spaces, in quotes where a word has spaces or none; `#` begins a comment."""
    lists = []
    for line in text.splitlines():
        if line.strip() and not line.startswith("#"):
            reader = shlex.shlex(line, posix=True, punctuation_chars=False)
            reader.whitespace_split, reader.escape, reader.commenters = True, "", ""
            lists.append(list(reader))
    return lists


def rows_of(table):
    return list(csv.reader(io.StringIO(table, newline="")))[1:]


def _is_function(text):
    return re.search(r"^\s*CREATE\s+(OR\s+REPLACE\s+)?FUNCTION\b", text, re.IGNORECASE | re.MULTILINE) is not None
