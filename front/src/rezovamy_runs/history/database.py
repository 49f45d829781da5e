"""The databases that can keep the index, and what is asked of each of them.

Statements are SQL that SQLite and PostgreSQL read alike, with `?` where a value stands.
"""

from __future__ import annotations

import contextlib
import pathlib
import sqlite3
from collections.abc import Iterable, Iterator, Sequence
from typing import Any, Protocol

Value = str | int | float | None
Row = tuple[Any, ...]
# How long a writer waits for another one, in seconds.
LONGEST_WAIT = 60


class Unusable(Exception):
    """The database can't be read or written; the text says why."""


class Damaged(Unusable):
    """A file isn't a database, or not a whole one."""


class Database(Protocol):
    """A database that keeps the index. What fails is `Unusable`."""

    # What stands behind a table that is kept in the order of its key.
    clustered: str

    def rows(self, statement: str, values: Sequence[Value] = ()) -> Iterator[Row]:
        """Ask for rows, one by one."""

    def write(self, statement: str, rows: Iterable[Sequence[Value]] = ((),)) -> None:
        """Do a statement for each row of values."""

    def insert(self, table: str, columns: Sequence[str], rows: Iterable[Sequence[Value]]) -> None:
        """Add rows to a table. A row whose key is there is left out."""

    def transaction(self) -> contextlib.AbstractContextManager[None]:
        """Let what is done meanwhile come whole or not at all."""

    def lock(self) -> None:
        """Let no other one change tables, until the transaction ends."""

    def close(self) -> None:
        """Let go of it."""


def insertion(table: str, columns: Sequence[str], count: int = 1) -> str:
    """Return the statement that adds rows, and leaves out one whose key is there."""
    marks = ", ".join([f"({', '.join('?' * len(columns))})"] * count)
    return f"INSERT INTO {table} ({', '.join(columns)}) VALUES {marks} ON CONFLICT DO NOTHING"


@contextlib.contextmanager
def sqlite_faults() -> Iterator[None]:
    """Tell what fails in SQLite as `Unusable`."""
    try:
        yield
    except sqlite3.OperationalError as error:
        raise Unusable(str(error)) from error
    except sqlite3.DatabaseError as error:
        raise Damaged(str(error)) from error


class SqliteDatabase:
    """A file of SQLite, or the memory of this process."""

    clustered = " WITHOUT ROWID"

    def __init__(self, path: pathlib.Path | None) -> None:
        with sqlite_faults():
            self._connection = sqlite3.connect(
                path or ":memory:", timeout=LONGEST_WAIT, isolation_level=None
            )
            try:
                # Readers don't wait for a writer then, and a killed writer leaves the file whole.
                self._connection.execute("PRAGMA journal_mode = WAL")
                # After a power cut the last runs may be read again.
                self._connection.execute("PRAGMA synchronous = NORMAL")
                self._connection.execute("PRAGMA temp_store = MEMORY")
            except sqlite3.Error:
                self._connection.close()
                raise

    def rows(self, statement: str, values: Sequence[Value] = ()) -> Iterator[Row]:
        """Ask for rows, one by one."""
        with sqlite_faults():
            yield from self._connection.execute(statement, values)

    def write(self, statement: str, rows: Iterable[Sequence[Value]] = ((),)) -> None:
        """Do a statement for each row of values."""
        with sqlite_faults():
            if "?" in statement:
                self._connection.executemany(statement, rows)
            else:
                self._connection.execute(statement)

    def insert(self, table: str, columns: Sequence[str], rows: Iterable[Sequence[Value]]) -> None:
        """Add rows to a table. A row whose key is there is left out."""
        self.write(insertion(table, columns), rows)

    @contextlib.contextmanager
    def transaction(self) -> Iterator[None]:
        """Let what is done meanwhile come whole or not at all; other writers wait."""
        with sqlite_faults():
            self._connection.execute("BEGIN IMMEDIATE")
        try:
            yield
            with sqlite_faults():
                self._connection.execute("COMMIT")
        except BaseException:
            # A full disk may have ended the transaction already.
            if self._connection.in_transaction:
                self._connection.execute("ROLLBACK")
            raise

    def lock(self) -> None:
        """Let no other one change tables: the transaction does so already."""

    def close(self) -> None:
        """Let go of the file."""
        with contextlib.suppress(sqlite3.Error):
            self._connection.close()
