"""Seconds of the processor, which depend less on what else runs; those of the wall where /proc doesn't tell them."""

import pathlib
import resource
import time


def of_server(connection):
    """A clock of the server's process behind the connection."""
    times = pathlib.Path(f"/proc/{connection.run('SELECT pg_backend_pid()')[0][0]}/schedstat")
    if not times.exists():
        return time.perf_counter
    return lambda: int(times.read_text().split()[0]) / 1e9


def of_programs():
    """What all programs that were started and have ended took."""
    used = resource.getrusage(resource.RUSAGE_CHILDREN)
    return used.ru_utime + used.ru_stime
