"""The tables of the index, by version.

A database of an earlier version gets the steps that it lacks. One of a later version is left alone.
"""

from __future__ import annotations

import dataclasses
from collections.abc import Sequence

from rezovamy_runs.history.database import Damaged, Database, Unusable
from rezovamy_runs.history.rows import RunRow

RUN_COLUMNS = tuple(field.name for field in dataclasses.fields(RunRow))
TEST_COLUMNS = ("test", "binary_id", "name")
OUTCOME_COLUMNS = ("run", "test", "verdict", "attempts", "seconds", "message")

# The statements that lead from each version to the next one; version 0 has no table.
STEPS: Sequence[Sequence[str]] = (
    (
        """CREATE TABLE runs (
            run BIGINT NOT NULL PRIMARY KEY,
            id TEXT NOT NULL,
            stamp TEXT NOT NULL,
            started DOUBLE PRECISION NOT NULL,
            elapsed DOUBLE PRECISION NOT NULL,
            status TEXT NOT NULL,
            exit_code BIGINT,
            passed INTEGER NOT NULL,
            failed INTEGER NOT NULL,
            flaky INTEGER NOT NULL,
            skipped INTEGER NOT NULL,
            unseen INTEGER NOT NULL,
            profile TEXT NOT NULL,
            bytes BIGINT NOT NULL,
            commit_id TEXT,
            branch TEXT,
            dirty INTEGER NOT NULL,
            part TEXT NOT NULL,
            group_name TEXT,
            shard TEXT,
            parent TEXT
        )""",
        """CREATE TABLE tests (
            test BIGINT NOT NULL PRIMARY KEY,
            binary_id TEXT NOT NULL,
            name TEXT NOT NULL
        )""",
        # Of a run all tests lie together, and what a test did in a run is found at once.
        """CREATE TABLE outcomes (
            run BIGINT NOT NULL,
            test BIGINT NOT NULL,
            verdict TEXT NOT NULL,
            attempts INTEGER NOT NULL,
            seconds DOUBLE PRECISION NOT NULL,
            message TEXT,
            PRIMARY KEY (run, test)
        ) CLUSTERED""",
        """CREATE INDEX doubtful_outcomes ON outcomes (run, test)
            WHERE verdict IN ('fail', 'flaky')""",
    ),
)
VERSION_TABLE = "CREATE TABLE IF NOT EXISTS history_version (version INTEGER NOT NULL PRIMARY KEY)"
# Stands in a step for the words by which a database keeps a table in the order of its key.
CLUSTERED = " CLUSTERED"


class OtherVersion(Unusable):
    """The tables were made by a later version."""


def version_of(database: Database) -> int:
    """Return the version of the tables, 0 where there are none."""
    return int(next(database.rows("SELECT MAX(version) FROM history_version"))[0] or 0)


def has_tables(database: Database, version: int) -> bool:
    """Tell whether the tables are of a version; where they can't be read, they aren't."""
    try:
        return version_of(database) == version
    except Damaged:
        raise
    except Unusable:
        return False


def prepare(database: Database, steps: Sequence[Sequence[str]] = STEPS) -> None:
    """Bring the tables to the version of the steps."""
    if has_tables(database, len(steps)):
        return
    with database.transaction():
        database.lock()
        database.write(VERSION_TABLE)
        version = version_of(database)
        if version > len(steps):
            raise OtherVersion(f"it is of version {version}, and {len(steps)} is known here")
        for place in range(version, len(steps)):
            for statement in steps[place]:
                database.write(statement.replace(CLUSTERED, database.clustered))
            database.write("INSERT INTO history_version VALUES (?)", [(place + 1,)])
