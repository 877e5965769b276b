"""The differences that are known, with their reasons: by the case's name and the words of the arguments, each with what
the query answers there.

PostgreSQL is free to drop an expression whose value nothing uses, and to evaluate one before its turn. A query can't
forbid it, so a fault of the function can vanish in the query, or come where the function has none.
"""

KNOWN = {
    ("unused", ("0",)): ("value 5", "PostgreSQL drops the division, whose value nothing uses"),
    ("early", ("0",)): ("fault 22012", "PostgreSQL divides the two constants when it plans, before any row"),
    ("faulting", ("1", "-1")): (
        "value one: -1, 0", "PostgreSQL moves the subquery with the LIMIT into COALESCE, which doesn't come to it"),
}
