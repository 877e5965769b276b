"""What is measured: functions, and what they are called with."""

import re
from dataclasses import dataclass


@dataclass
class Measured:
    label: str
    file: str  # beside this one
    name: str  # of the function
    types: tuple  # of its parameters
    once: tuple  # the arguments of one call
    each: tuple  # the arguments of the call for row i

    def by_rows(self, rows):
        """A query that calls the function for so many rows."""
        return f"SELECT count({self.name}({', '.join(self.each)})) FROM generate_series(1, {rows}) AS calls(i)"

    def beside_rows(self, rows, query):
        """The same with its query at each row."""
        here = re.sub(r"\$(\d+)", lambda place: f"({self.each[int(place.group(1)) - 1]})", query)
        return (f"SELECT count(answer.result) FROM generate_series(1, {rows}) AS calls(i),"
                f" LATERAL ({here}) AS answer(result, fault)")


def _bigint(text):
    return f"CAST({text} AS bigint)"


MEASURED = [
    Measured("collatz", "../../examples/collatz/collatz.sql", "collatz", ("bigint",), ("97",), (_bigint("calls.i"),)),
    Measured("gcd", "../../examples/gcd/common_divisor.sql", "common_divisor", ("bigint", "bigint"),
             ("987654321987", "1234567890"), (_bigint("calls.i * 1000007"), _bigint("calls.i * 12345 + 77"))),
    Measured("padded", "../../examples/padded/padded.sql", "padded", ("text", "bigint"), ("'away'", "60"),
             ("'w' || calls.i", _bigint("10 + calls.i % 40"))),
    Measured("pieces", "../../examples/parts/count_pieces.sql", "count_pieces", ("text", "text"), ("'p1'", "'p10001'"),
             ("'p1'", "'p' || (calls.i + 10000)")),
    Measured("looked_up", "functions/looked_up.sql", "looked_up", ("bigint", "bigint"), ("7", "50"),
             (_bigint("calls.i * 7919 % 10000"), _bigint("20 + calls.i % 30"))),
    Measured("robot", "functions/robot.sql", "robot", ("bigint", "bigint", "bigint", "bigint"), ("7", "60", "-60", "50"),
             (_bigint("calls.i % 400"), "60", "-60", "50")),
    Measured("one_for", "functions/one_for.sql", "one_for", ("bigint",), ("5",), (_bigint("calls.i"),)),
    Measured("two_loops", "functions/two_loops.sql", "two_loops", ("bigint",), ("20",), (_bigint("calls.i % 10"),)),
]
