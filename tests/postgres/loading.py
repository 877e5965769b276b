"""Loads a case into an empty schema of a server."""

from dataclasses import dataclass

from cases import rows_of
from connection import literal


@dataclass
class Loaded:
    """What the server knows of a case's function."""

    function: str
    types: list  # of its parameters
    result: str


def load(connection, case):
    """Loads the case's tables and its function."""
    run = connection.run
    run("DEALLOCATE ALL; RESET statement_timeout; DROP SCHEMA IF EXISTS public CASCADE; CREATE SCHEMA public")
    run(case.schema)
    for table, text in case.tables.items():
        _fill(connection, table, rows_of(text))
    run("ANALYZE")
    run(case.function)
    function, result, types = run(
        "SELECT proname, prorettype::regtype, array_to_string(proargtypes::regtype[], ',') FROM pg_proc"
        " WHERE pronamespace = 'public'::regnamespace")[0]
    return Loaded(function, types.split(",") if types else [], result)


def _fill(connection, table, rows):
    types = [row[0] for row in connection.run(
        "SELECT atttypid::regtype FROM pg_attribute WHERE attnum > 0 AND attrelid = "
        + literal("public." + table, "regclass") + " ORDER BY attnum")]
    if rows:
        written = ", ".join("(" + ", ".join(map(literal, row, types)) + ")" for row in rows)
        connection.run(f"INSERT INTO public.{table} VALUES {written}")
