"""Histories typed by hand: runs of a folder with their notes, and what their tests did.

A run is a line of text: its number, a commit (`*` behind it: with changed files), and for each test
how it ended, as `.F~s?` or `-` where the run doesn't have it.
"""

from __future__ import annotations

import dataclasses
import pathlib

from rezovamy_runs.history.rows import RunRow, key_of_run
from rezovamy_runs.json_values import JsonObject
from rezovamy_runs.store import notes
from rezovamy_runs.store.notes import RunNotes
from tests import made

TESTS = ("t0", "t1", "t2", "t3", "t4", "t5")
# How long a test takes that passes, in seconds.
TOOK = 1.0


def id_of(number: int) -> str:
    """Return the id of the run of this number."""
    return f"{number:08x}-0000-4000-8000-000000000000"


def test_events(at: float, name: str, mark: str, took: float = TOOK) -> list[JsonObject]:
    """Return the events of a test that ended so."""
    failed = made.status(at, took, made.exit_code(), 1, 2)
    if mark == "s":
        return [made.skipped(at, name)]
    started = made.started(at, name)
    if mark == "?":
        return [started]
    if mark == "~":
        return [
            started,
            made.failed(at, name, failed),
            made.retried(at, name, 2, 2),
            made.finished(at, name, failed, made.status(at, took, "pass", 2, 2)),
        ]
    result = "pass" if mark == "." else made.exit_code()
    return [started, made.finished(at, name, made.status(at, took, result))]


@dataclasses.dataclass(frozen=True)
class Folder:
    """A folder of runs."""

    path: pathlib.Path

    def add(
        self,
        number: int,
        marks: str,
        known: RunNotes | None = None,
        times: tuple[float, ...] = (),
        at: float | None = None,
        parent: int | None = None,
    ) -> None:
        """Add a run, by default at so many seconds as its number says."""
        begin = float(number) if at is None else at
        took = dict(enumerate(times))
        events = [made.run_started(begin)]
        for place, mark in enumerate(marks):
            if mark != "-":
                events += test_events(begin, TESTS[place], mark, took.get(place, TOOK))
        failed = marks.count("F")
        events.append(made.run_finished(begin + 1, 1))
        ended = made.completed(len(marks) - failed, failed, 101 if failed else 0)
        run_id = id_of(number)
        data = (
            made.bundle(*events, ended=ended, at=begin, run_id=run_id)
            if parent is None
            else made.bundle(
                *events, ended=ended, at=begin, run_id=run_id, parent_run_id=id_of(parent)
            )
        )
        self.path.mkdir(parents=True, exist_ok=True)
        bundle = self.path / f"{id_of(number)}.bundle"
        bundle.write_bytes(data)
        if known is not None:
            notes.write(known, notes.path_beside(bundle))

    def add_lines(self, text: str) -> None:
        """Add the runs of a history."""
        for line in text.strip().splitlines():
            number, commit, marks = line.split()
            known = RunNotes(
                commit=None if commit == "-" else commit.rstrip("*"), dirty=commit.endswith("*")
            )
            self.add(int(number), marks, known)


def row(number: int, **more: object) -> RunRow:
    """Return a row of a whole run of which nothing is known but its number."""
    values: dict[str, object] = {
        "run": key_of_run(id_of(number)),
        "id": id_of(number),
        "stamp": "",
        "started": float(number),
        "elapsed": 1.0,
        "status": "completed",
        "exit_code": 0,
        "passed": 0,
        "failed": 0,
        "flaky": 0,
        "skipped": 0,
        "unseen": 0,
        "profile": "default",
        "bytes": 0,
        "commit_id": None,
        "branch": None,
        "dirty": 0,
        "part": "whole",
        "group_name": None,
        "shard": None,
        "parent": None,
        **more,
    }
    return RunRow(**values)  # type: ignore[arg-type] # Each test has them of their types.
