"""Tables of calls: a number that tells the call apart, and arguments of a function, by fixed formulas."""

from dataclasses import dataclass, replace

from cases import Case, folder_cases

PRIME = 1000003  # the numbers of fewer calls differ, and aren't in the order of the rows
LARGEST = "9223372036854775807"  # of which three times one more is no bigint
NAMES = ("bicycle", "frame", "wheel", "rim", "spoke", "saddle", "\\N")


@dataclass
class Calls:
    name: str
    case: Case  # with a table `calls` beside its own
    columns: list  # the names of the columns that are arguments
    raises: bool  # whether some calls raise, so that each is tried on its own


def tables_of_calls(count):
    """Each function with so many calls; and with one more, which faults while an expression is evaluated."""
    cases = {case.name: case for case in folder_cases()}
    collatz = [[_number(31 * i % count + 1, i % 1000 == 999)] for i in range(count)]
    kinds = [[NAMES[i % 7], NAMES[i // 7 % 7]] for i in range(count)]
    choices = [[_number(i % 10, i % 11 == 10)] for i in range(count)]
    return [
        _calls("collatz", cases["collatz"], {"n": "bigint"}, collatz, False),
        _calls("parts", cases["parts"], {"whole": "text", "piece": "text"}, kinds, False),
        _calls("raised", cases["raised"], {"choice": "bigint"}, choices, True),
        _calls("overflow", cases["collatz"], {"n": "bigint"}, collatz + [[LARGEST]], False),
    ]


def _number(number, is_null):
    return "\\N" if is_null else str(number)


def _calls(name, case, columns, rows, raises):
    """One call has no number: its row comes last."""
    lines = [",".join(["id", *columns])]
    lines += [",".join([_number(7919 * i % PRIME, i == 0), *row]) for i, row in enumerate(rows)]
    typed = "".join(f", {column} {kind}" for column, kind in columns.items())
    return Calls(name, replace(
        case,
        schema=f"{case.schema}\nCREATE TABLE public.calls (id bigint{typed});\n",
        tables={**case.tables, "calls": "\n".join(lines) + "\n"},
    ), list(columns), raises)
