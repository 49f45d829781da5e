"""The rows of the index: what it keeps of each run, and of each test in it.

A row holds texts that every database can keep: characters that harm a terminal are spelled.
Instants are seconds since 1970-01-01 UTC, and lengths are seconds.
"""

from __future__ import annotations

import dataclasses
import hashlib
import pathlib

from rezovamy_runs import formatting
from rezovamy_runs.bundles import bundle
from rezovamy_runs.history.outcomes import Outcomes, outcomes
from rezovamy_runs.json_values import JsonObject
from rezovamy_runs.model import Run, TestName
from rezovamy_runs.store import notes
from rezovamy_runs.store.notes import Part, RunNotes


@dataclasses.dataclass(frozen=True, slots=True)
class RunRow:
    """What the index keeps of a run, in the order of its columns."""

    run: int
    id: str
    # What its files were when they were read.
    stamp: str
    started: float
    elapsed: float
    status: str
    exit_code: int | None
    passed: int
    failed: int
    flaky: int
    skipped: int
    unseen: int
    profile: str
    bytes: int
    commit_id: str | None
    branch: str | None
    # 1 where a file that git tracks was changed since the commit.
    dirty: int
    part: str
    group_name: str | None
    # The number of the shard and how many there are, as 2/4.
    shard: str | None
    parent: str | None


@dataclasses.dataclass(frozen=True, slots=True)
class Recorded:
    """What the index keeps of a recorded run and of its tests."""

    row: RunRow
    outcomes: Outcomes


def key_of(*words: str) -> int:
    """Return the 64-bit key of a run or a test, which is made of its name alone.

    So nobody has to ask for the next number, whoever writes.
    """
    text = "\0".join(words).encode("utf-8", "surrogatepass")
    return int.from_bytes(hashlib.blake2b(text, digest_size=8).digest(), "big", signed=True)


def key_of_test(test: TestName) -> int:
    """Return the key of a test."""
    return key_of(*test)


def key_of_run(run_id: str) -> int:
    """Return the key of a run."""
    return key_of(run_id)


def outcomes_of(path: pathlib.Path, stamp: str = "") -> Recorded:
    """Return what a bundle and the notes beside it say."""
    run = bundle.read_run(path, outputs=False)
    return Recorded(row_of(run, notes.read(notes.path_beside(path)), stamp), outcomes(run))


def row_of(run: Run, known: RunNotes | None, stamp: str = "") -> RunRow:
    """Return the row of a run by what it and its notes say."""
    noted = known or RunNotes()
    part = Part.AGAIN if known is None and run.parent else noted.part
    counts = run.counts
    return RunRow(
        key_of_run(run.id),
        run.id,
        stamp,
        run.started,
        run.elapsed,
        run.status.value,
        run.exit_code,
        counts.passed,
        counts.failed,
        counts.flaky,
        counts.skipped,
        counts.unseen,
        formatting.name(run.profile),
        run.size,
        plain(noted.commit),
        plain(noted.branch),
        int(bool(noted.dirty)),
        part.value,
        plain(noted.group),
        str(noted.shard) if noted.shard else None,
        run.parent,
    )


def plain(text: str | None) -> str | None:
    """Return a text that every database can keep, None for none."""
    return None if text is None else formatting.name(text)


def named(test: TestName) -> JsonObject:
    """Return what a test is known by, for scripts."""
    return {"binary": test.binary, "test": test.test}
