"""Rows of two sides: how long they take, what `away rows` wrote of them, and what differs."""

import csv
import io
import time

SHORT_SECONDS = 0.5


def timed(run, now=time.perf_counter):
    """What a run gives, and the least time of three runs; of one where that is long already."""
    least, begun = float("inf"), now()
    for _ in range(3):
        start = now()
        answer = run()
        least = min(least, now() - start)
        if now() - begun > SHORT_SECONDS:
            break
    return answer, least


def written(said):
    """What `away rows` wrote: rows, or a line."""
    if said.returncode != 0:
        return said.stdout.strip() or f"status {said.returncode}"
    records = csv.reader(io.StringIO(said.stdout, newline=""))
    return [[None if value == "\\N" else value for value in record] for record in records]


def difference(wanted, found):
    """What of two answers differs, by the first row."""
    if isinstance(wanted, str) or isinstance(found, str):
        return found if isinstance(found, str) else f"{len(found)} rows"
    if len(wanted) != len(found):
        return f"{len(found)} rows instead of {len(wanted)}"
    differing = [pair for pair in zip(wanted, found) if pair[0] != pair[1]]
    return f"{len(differing)} rows, of which the first is {differing[0][1]} instead of {differing[0][0]}"
