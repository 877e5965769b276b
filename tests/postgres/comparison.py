"""Runs the cases in a server and prints what each side answers."""

import pathlib
import sys
import tempfile
import time

from cases import write_case
from connection import Fault, literal
from known import KNOWN
from loading import load

TURNS = "1000000"
SHORT_SECONDS = 0.5
OVER_TIME = "over time"
HEADINGS = ("arguments", "function", "ms", "query", "ms", "in sql", "ms", "unrolled", "ms", "differs")


class Comparison:
    def __init__(self, server, away, options):
        self.connection = server.connect()
        self.seconds, self.with_demo, self.turns = options.seconds, options.demo, str(options.turns)
        self.away = away
        self.compared = self.known = self.unmarked = self.unrun = 0
        print(f"PostgreSQL {self.connection.run('SHOW server_version')[0][0]}, {away.line('--version')}")

    def compare(self, case):
        """Prints the case's table."""
        print(f"\n{case.name}")
        with tempfile.TemporaryDirectory(prefix="away-case-") as folder:
            files = write_case(case, pathlib.Path(folder))
            compiled = self.away.call("compile", files.schema, files.function)
            unrolled = self.away.call("unroll", self.turns, files.schema, files.function)
            if compiled.returncode != 0 or unrolled.returncode != 0:
                self.unrun += 1
                print(f"  not written: {compiled.stdout.strip() or unrolled.stdout.strip()}")
                return
            try:
                loaded = self._load(case, compiled.stdout, unrolled.stdout)
            except Fault as fault:
                self.unrun += 1
                print(f"  not loaded: {fault}")
                return
            rows = [self._row(case, loaded, words, files) for words in case.arguments]
        _print_table(rows)

    def conclude(self):
        """Prints the count, and answers the status."""
        print(f"\n{self.compared} lists of arguments: {self.unmarked} unmarked differences, {self.known} known ones"
              + (f"; {self.unrun} cases didn't run" if self.unrun else ""))
        return 1 if self.unmarked or self.unrun else 0

    def _load(self, case, query, unrolled):
        """Loads the case, its query in both forms, and that of several turns in an iteration."""
        loaded, run = load(self.connection, case), self.connection.run
        listed = ", ".join(loaded.types)
        typed = f"({listed})" if listed else ""
        run(f"PREPARE away_query{typed} AS {query}")
        run(f"PREPARE away_unrolled{typed} AS {unrolled}")
        run(f"CREATE FUNCTION public.away_in_sql({listed}) RETURNS TABLE (away_result {loaded.result}, away_fault text)"
            f" LANGUAGE sql AS $away${query}$away$")
        run(f"SET statement_timeout = '{self.seconds}s'")
        return loaded

    def _row(self, case, loaded, words, files):
        """The row of the table for one list of arguments."""
        self.compared += 1
        given = ", ".join(map(literal, words, loaded.types))
        in_parentheses = f"({given})" if words else ""
        answers = [
            self._timed(f"SELECT public.{loaded.function}({given})", _function_answer, loaded.result),
            self._timed(f"EXECUTE away_query{in_parentheses}", _query_answer, loaded.result),
            self._timed(f"SELECT * FROM public.away_in_sql({given})", _query_answer, loaded.result),
            self._timed(f"EXECUTE away_unrolled{in_parentheses}", _query_answer, loaded.result),
        ]
        said = {"away fn": self.away.line("fn", TURNS, files.schema, files.function, files.tables, *words)}
        if self.with_demo and case.number is not None:
            said["away demo"] = self._demo_answer(case.number)
        shown = [_short(" ".join(word or "''" for word in words))]
        for answer, seconds in answers:
            shown += [_short(answer), f"{seconds * 1000:.2f}"]
        return shown + [self._judge(case, words, [answer for answer, _ in answers], said)]

    def _demo_answer(self, number):
        """The answer of the function where the query has the same; else all that was written."""
        whole = self.away.line("demo", str(number))
        lines = dict(line.split(" ", 1) for line in whole.splitlines() if " " in line)
        return lines["function"] if lines.get("function", 0) == lines.get("query", 1) else whole.replace("\n", "; ")

    def _judge(self, case, words, answers, said):
        """What differs, and why where that is known."""
        function, query, in_sql, unrolled = answers
        sides = {"query": query, "in sql": in_sql, "unrolled": unrolled}
        sides.update((f"{command} says {answer}", answer) for command, answer in said.items())
        others = [name for name, answer in sides.items() if answer != function]
        if not others:
            return ""
        instead, reason = KNOWN.get((case.name, tuple(words)), (None, None))
        if {unrolled, *said.values()} == {function} and {query, in_sql} <= {function, instead}:
            self.known += 1
            return f"known: {reason}"
        self.unmarked += 1
        return "DIFFERS: " + ", ".join(others)

    def _timed(self, text, answer_of, result):
        """The answer, and the least time of three runs; of one where that is long already."""
        answers, least, begun = set(), float("inf"), time.perf_counter()
        for _ in range(3):
            start = time.perf_counter()
            try:
                answer = answer_of(self.connection.run(text), result)
            except Fault as fault:
                answer = OVER_TIME if fault.sqlstate == "57014" else f"fault {fault.sqlstate}"
            least = min(least, time.perf_counter() - start)
            answers.add(answer)
            if time.perf_counter() - begun > SHORT_SECONDS:
                break
        return " or ".join(sorted(answers)), least


def _function_answer(rows, result):
    return _value(rows[0][0], result)


def _query_answer(rows, result):
    if len(rows) != 1:
        return f"shape {len(rows)}"
    value, fault = rows[0]
    return f"fault {fault}" if fault is not None else _value(value, result)


def _value(value, result):
    if value is None:
        return "null"
    return "value " + ({"t": "true", "f": "false"}[value] if result == "boolean" else value)


def _short(text):
    return text if len(text) <= 40 else text[:36] + " ..."


def _print_table(rows):
    rows = [list(HEADINGS)] + rows
    widths = [max(len(row[column]) for row in rows) for column in range(len(HEADINGS))]
    for row in rows:
        cells = [cell.rjust(width) if HEADINGS[column] == "ms" else cell.ljust(width)
                 for column, (cell, width) in enumerate(zip(row, widths))]
        print(("  " + "  ".join(cells)).rstrip())
    sys.stdout.flush()
