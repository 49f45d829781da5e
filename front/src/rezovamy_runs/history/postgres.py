"""The index in PostgreSQL, or in what speaks its protocol, by psycopg."""

from __future__ import annotations

import contextlib
import itertools
from collections.abc import Iterable, Iterator, Sequence

from rezovamy_runs.faults.fault import Fault
from rezovamy_runs.history.database import Row, Unusable, Value, insertion

try:
    import psycopg
except ImportError as missing:
    raise Fault(
        "a history in PostgreSQL needs psycopg: install python3-psycopg, or unset REZOVAMY_HISTORY"
    ) from missing

# How long a server has to answer that it is there, in seconds.
LONGEST_CONNECT = 10
# A statement has at most 65,535 values.
ROWS_AT_ONCE = 1000
# The lock of those that make or change tables.
LOCK = 0x72657A6F


@contextlib.contextmanager
def server_faults() -> Iterator[None]:
    """Tell what fails at the server as `Unusable`, by the first line of what it says."""
    try:
        yield
    except psycopg.Error as error:
        said = str(error).strip().splitlines()
        raise Unusable(said[0] if said else type(error).__name__) from error


class PostgresDatabase:
    """A database of a server."""

    clustered = ""

    def __init__(self, url: str) -> None:
        with server_faults():
            self._connection = psycopg.connect(
                url, autocommit=True, connect_timeout=LONGEST_CONNECT
            )

    def rows(self, statement: str, values: Sequence[Value] = ()) -> Iterator[Row]:
        """Ask for rows, one by one."""
        with server_faults():
            yield from self._connection.execute(marked(statement), values)

    def write(self, statement: str, rows: Iterable[Sequence[Value]] = ((),)) -> None:
        """Do a statement for each row of values."""
        with server_faults(), self._connection.cursor() as cursor:
            cursor.executemany(marked(statement), rows)

    def insert(self, table: str, columns: Sequence[str], rows: Iterable[Sequence[Value]]) -> None:
        """Add rows to a table, many by each statement. A row whose key is there is left out."""
        left = iter(rows)
        with server_faults():
            while some := list(itertools.islice(left, ROWS_AT_ONCE)):
                values = [value for row in some for value in row]
                self._connection.execute(marked(insertion(table, columns, len(some))), values)

    @contextlib.contextmanager
    def transaction(self) -> Iterator[None]:
        """Let what is done meanwhile come whole or not at all."""
        with server_faults(), self._connection.transaction():
            yield

    def lock(self) -> None:
        """Let no other one change tables, until the transaction ends."""
        self.write(f"SELECT pg_advisory_xact_lock({LOCK})")

    def close(self) -> None:
        """End the connection."""
        with contextlib.suppress(psycopg.Error):
            self._connection.close()


def marked(statement: str) -> bytes:
    """Return a statement with the marks of psycopg where values stand."""
    return statement.replace("?", "%s").encode()
