"""Brings the index up to date: each run that is new comes into it, in a transaction of its own."""

from __future__ import annotations

import concurrent.futures
import multiprocessing
import os
import pathlib
import signal
from collections.abc import Callable, Iterable, Iterator

from rezovamy_runs.bundles import bundle_file
from rezovamy_runs.faults.fault import Fault
from rezovamy_runs.history import schema
from rezovamy_runs.history.database import Database
from rezovamy_runs.history.rows import Recorded, key_of_run, key_of_test, outcomes_of
from rezovamy_runs.processes.descendants import ask_for_signal_at_death_of_parent
from rezovamy_runs.store import notes
from rezovamy_runs.store.live_folder import RUN_ID
from rezovamy_runs.store.run_folder import Store

# With fewer new runs than this, it takes longer to start processes than to read.
FEWEST_FOR_PROCESSES = 8
MOST_PROCESSES = 4
# How many runs are read ahead of the one that is written.
AHEAD = 4

STAMPS = "SELECT id, stamp FROM runs"

Say = Callable[[str], object]
# What was read of a bundle, or a line that says why it can't be.
Read = Recorded | str


def stamps(runs: Store) -> dict[str, str]:
    """Return for each run what its files are by their sizes; a run never changes otherwise."""
    if not runs.folder.is_dir():
        return {}
    with os.scandir(runs.folder) as entries:
        sizes = {entry.name: entry.stat().st_size for entry in entries if entry.is_file()}
    return {
        bundle_file.stem_of(name): f"{size}+{sizes.get(notes_name(name), 0)}"
        for name, size in sorted(sizes.items())
        if bundle_file.is_named_so(name) and RUN_ID.fullmatch(bundle_file.stem_of(name))
    }


def notes_name(bundle: str) -> str:
    """Return the name of the notes beside a bundle."""
    return f"{bundle_file.stem_of(bundle)}{notes.ENDING}"


def update(database: Database, runs: Store, say: Say, forgets: bool = True) -> None:
    """Bring the index up to date with the runs of a folder.

    Those whose bundles are gone are forgotten, where the index is of this folder alone.
    """
    there = stamps(runs)
    known: dict[str, str] = {row[0]: row[1] for row in database.rows(STAMPS)}
    if forgets:
        forget(database, known.keys() - there.keys())
    wanted = [run_id for run_id, stamp in there.items() if known.get(run_id) != stamp]
    for read in read_all([(runs.path_of(run_id), there[run_id]) for run_id in wanted]):
        if isinstance(read, str):
            say(read)
        else:
            add(database, read)


def add(database: Database, recorded: Recorded) -> None:
    """Put a run into the index, in place of what it has of it; another writer may be first."""
    row, outcomes = recorded.row, recorded.outcomes
    keys = {test: key_of_test(test) for test in outcomes}
    with database.transaction():
        remove(database, row.id)
        values = [getattr(row, column) for column in schema.RUN_COLUMNS]
        database.insert("runs", schema.RUN_COLUMNS, [values])
        tests = sorted((key, *test) for test, key in keys.items())
        database.insert("tests", schema.TEST_COLUMNS, tests)
        database.insert(
            "outcomes",
            schema.OUTCOME_COLUMNS,
            sorted(
                (row.run, keys[test], one.verdict.value, one.attempts, one.seconds, one.message)
                for test, one in outcomes.items()
            ),
        )


def forget(database: Database, run_ids: Iterable[str]) -> None:
    """Take runs out of the index."""
    for run_id in run_ids:
        with database.transaction():
            remove(database, run_id)


def remove(database: Database, run_id: str) -> None:
    """Remove what the index has of a run."""
    for table in ("outcomes", "runs"):
        database.write(f"DELETE FROM {table} WHERE run = ?", [(key_of_run(run_id),)])


def read_one(path: pathlib.Path, stamp: str) -> Read | None:
    """Return what a bundle says, or why it can't be read; None where it is gone by now."""
    try:
        return outcomes_of(path, stamp)
    except FileNotFoundError:
        return None
    except Fault as fault:
        return str(fault)


def read_all(wanted: list[tuple[pathlib.Path, str]]) -> Iterator[Read]:
    """Read bundles, many of them in several processes at once; those that are gone are left out."""
    if len(wanted) < FEWEST_FOR_PROCESSES:
        read: Iterator[Read | None] = (read_one(*one) for one in wanted)
    else:
        read = read_by_processes(wanted)
    return (one for one in read if one is not None)


def read_by_processes(wanted: list[tuple[pathlib.Path, str]]) -> Iterator[Read | None]:
    """Read bundles in several processes, in the order in which they stand here."""
    count = min(MOST_PROCESSES, len(os.sched_getaffinity(0)))
    context = multiprocessing.get_context("fork")
    with concurrent.futures.ProcessPoolExecutor(count, context, end_with, (os.getpid(),)) as pool:
        waiting: list[concurrent.futures.Future[Read | None]] = []
        try:
            for one in wanted:
                waiting.append(pool.submit(read_one, *one))
                if len(waiting) > AHEAD * count:
                    yield waiting.pop(0).result()
            while waiting:
                yield waiting.pop(0).result()
        finally:
            for left in waiting:
                left.cancel()


def end_with(parent: int) -> None:
    """Let a process that reads end when the one that asked dies; a key ends that one alone."""
    signal.signal(signal.SIGINT, signal.SIG_IGN)
    ask_for_signal_at_death_of_parent(signal.SIGKILL)
    if os.getppid() != parent:
        os.kill(os.getpid(), signal.SIGKILL)
