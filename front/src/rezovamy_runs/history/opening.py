"""Opens the index of the runs of a folder, and asks it.

It is a file beside the runs, or the database that the environment names. The file can always be
made again of the runs: a damaged one is, and where none can be written, the answer comes from
memory.
"""

from __future__ import annotations

import contextlib
import os
import pathlib
from collections.abc import Callable
from typing import TypeVar

from rezovamy_runs.faults.fault import Fault
from rezovamy_runs.history import index, schema
from rezovamy_runs.history.database import Damaged, Database, SqliteDatabase, Unusable
from rezovamy_runs.history.index import Say
from rezovamy_runs.store.run_folder import Store

FILE = "history.sqlite"
# The variable of the environment that names a database of PostgreSQL.
VARIABLE = "REZOVAMY_HISTORY"
SCHEMES = ("postgresql://", "postgres://")
# What SQLite has beside its file.
BESIDE = ("", "-wal", "-shm", "-journal")

Answer = TypeVar("Answer")
Question = Callable[[Database], Answer]


def ask(runs: Store, question: Question[Answer], say: Say) -> Answer:
    """Bring the index up to date, and return what it answers."""
    url = os.environ.get(VARIABLE)
    return ask_server(url, runs, question, say) if url else ask_file(runs, question, say)


def answer_of(database: Database, runs: Store, question: Question[Answer], say: Say) -> Answer:
    """Bring an index of a folder up to date, and return what it answers."""
    schema.prepare(database)
    index.update(database, runs, say)
    return question(database)


def ask_file(runs: Store, question: Question[Answer], say: Say) -> Answer:
    """Ask the file beside the runs. Where that fails, one line says what was done."""
    path = runs.folder / FILE
    if not runs.folder.is_dir():
        return ask_memory(runs, question, say)
    try:
        try:
            return ask_path(path, runs, question, say)
        except Damaged as damage:
            say(f"{path} is damaged ({damage}), and is made again of the runs")
            remove(path)
            return ask_path(path, runs, question, say)
    except schema.OtherVersion as error:
        raise Fault(
            f"{path} was made by a later version ({error}): "
            "use that one, or make it again by `rezovamy-runs reindex`"
        ) from error
    except (Unusable, OSError) as error:
        said = "the runs are read again for this answer; make room or give access"
        say(f"{path} can't be kept ({error}): {said}")
        return ask_memory(runs, question, say)


def ask_path(path: pathlib.Path, runs: Store, question: Question[Answer], say: Say) -> Answer:
    """Ask the file at a path."""
    with contextlib.closing(SqliteDatabase(path)) as database:
        return answer_of(database, runs, question, say)


def ask_memory(runs: Store, question: Question[Answer], say: Say) -> Answer:
    """Ask an index that is made for one answer."""
    with contextlib.closing(SqliteDatabase(None)) as database:
        return answer_of(database, runs, question, say)


def ask_server(url: str, runs: Store, question: Question[Answer], say: Say) -> Answer:
    """Ask the database that a URL names. It has runs of other folders too, so none is forgotten."""
    if not url.startswith(SCHEMES):
        raise Fault(f"{VARIABLE} is no URL of PostgreSQL: give one as postgresql://HOST/NAME")
    # Few have it, and need it.
    from rezovamy_runs.history import postgres

    try:
        with contextlib.closing(postgres.PostgresDatabase(url)) as database:
            schema.prepare(database)
            index.update(database, runs, say, forgets=False)
            return question(database)
    except schema.OtherVersion as error:
        raise Fault(
            f"the history of {VARIABLE} was made by a later version ({error}): use that one"
        ) from error
    except Unusable as error:
        raise Fault(
            f"the history of {VARIABLE} can't be asked ({error}): the runs stay in {runs.folder}, "
            "and the next question adds them"
        ) from error


def remove(path: pathlib.Path) -> None:
    """Remove the file of an index, and what SQLite has beside it."""
    for ending in BESIDE:
        path.with_name(f"{path.name}{ending}").unlink(missing_ok=True)
