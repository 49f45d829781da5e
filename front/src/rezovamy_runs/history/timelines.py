"""How one test fared from run to run: since when it fails, and how long it takes."""

from __future__ import annotations

import dataclasses
import statistics
from collections.abc import Mapping, Sequence

from rezovamy_runs.history.joining import JoinedRun
from rezovamy_runs.history.outcomes import Outcome
from rezovamy_runs.model import TestName, Verdict
from rezovamy_runs.store.as_one import UNKNOWN

# What stands for a run, by how the test ended in it.
MARKS = {
    Verdict.PASS: ".",
    Verdict.FLAKY: "~",
    Verdict.FAIL: "F",
    Verdict.SKIP: "s",
    Verdict.UNFINISHED: "?",
}
ABSENT = "-"
MEANINGS = {
    ".": "passed",
    "~": "failed, then passed",
    "F": "failed",
    "s": "skipped",
    "?": "never ended",
    "-": "not in the run",
}


@dataclasses.dataclass(frozen=True)
class Entry:
    """A run, and how the test ended in it; None where the run doesn't have it."""

    run: JoinedRun
    outcome: Outcome | None

    @property
    def known(self) -> Outcome | None:
        """Return the outcome if it says whether the test passes."""
        return None if self.outcome is None or self.outcome.verdict in UNKNOWN else self.outcome

    @property
    def mark(self) -> str:
        """Return the character that stands for the run."""
        return ABSENT if self.outcome is None else MARKS[self.outcome.verdict]


@dataclasses.dataclass(frozen=True)
class Times:
    """The active times of a test in the runs in which it passed."""

    shortest: float
    usual: float
    longest: float
    last: float


@dataclasses.dataclass(frozen=True)
class Timeline:
    """A test over runs, in the order in which these started."""

    test: TestName
    entries: tuple[Entry, ...]

    @property
    def marks(self) -> str:
        """Return a character for each run."""
        return "".join(entry.mark for entry in self.entries)

    @property
    def times(self) -> Times | None:
        """Return the times, None if it never passed."""
        known = [entry.known for entry in self.entries]
        found = [one.seconds for one in known if one is not None and one.is_good]
        if not found:
            return None
        return Times(min(found), statistics.median(found), max(found), found[-1])

    @property
    def failing(self) -> tuple[Entry, ...]:
        """Return the runs at the end in which it failed, without any in which it passed."""
        failing: list[Entry] = []
        for entry in reversed(self.entries):
            if entry.known and not entry.known.has_failed:
                break
            if entry.known:
                failing.append(entry)
        return tuple(reversed(failing))

    @property
    def passed_last(self) -> Entry | None:
        """Return the last run in which it passed, None if there is none."""
        passed = [entry for entry in self.entries if entry.known and entry.known.is_good]
        return passed[-1] if passed else None


def timeline(
    test: TestName, runs: Sequence[JoinedRun], outcomes: Sequence[Mapping[TestName, Outcome]]
) -> Timeline:
    """Return a test over runs by the outcomes of each."""
    return Timeline(
        test, tuple(Entry(run, found.get(test)) for run, found in zip(runs, outcomes, strict=True))
    )


def matching(names: Sequence[TestName], word: str) -> list[TestName]:
    """Return the tests that a word names: by their name, binary and name, or a part of it."""
    exact = [name for name in names if word in (name.test, f"{name.binary} {name.test}")]
    return sorted(exact or [name for name in names if word in f"{name.binary} {name.test}"])
