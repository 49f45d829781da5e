"""Which tests can't be trusted: those that now pass and now fail, first at one commit."""

from __future__ import annotations

import array
import dataclasses
import enum
from collections.abc import Collection, Iterable, Iterator, Mapping, Sequence

from rezovamy_runs.history.joining import JoinedRun
from rezovamy_runs.model import TestName

# A test, a run and how it ended there, by their keys and as the tables have it. They are many.
Ended = tuple[int, int, str]


class Kind(enum.IntEnum):
    """What a test's passes and failures say of it, the least trusted first."""

    # It failed and passed with the same sources: the test isn't to be trusted.
    AT_ONE_COMMIT = 0
    # It failed with some sources, and passed with others.
    OVER_COMMITS = 1
    ALWAYS_FAILS = 2
    ALWAYS_PASSES = 3

    @property
    def word(self) -> str:
        """Return what scripts and addresses call it: `at-one-commit`."""
        return self.name.lower().replace("_", "-")


@dataclasses.dataclass(frozen=True, slots=True)
class Tally:
    """In how many runs of the same sources a test passed, did both, and failed."""

    test: TestName
    code: int
    passed: int
    # It failed, and then passed within the run.
    flaky: int
    failed: int

    @property
    def is_mixed(self) -> bool:
        """Tell whether it failed and passed."""
        return bool(self.flaky or self.passed and self.failed)


@dataclasses.dataclass(frozen=True, slots=True)
class Record:
    """How a test fared over several runs."""

    test: TestName
    passed: int = 0
    flaky: int = 0
    failed: int = 0
    # With how many sources it failed and passed.
    mixed: int = 0

    @property
    def runs(self) -> int:
        """Return in how many runs it ran to its end."""
        return self.passed + self.flaky + self.failed

    @property
    def doubtful(self) -> int:
        """Return in how many runs it failed, be it only at first."""
        return self.flaky + self.failed

    @property
    def kind(self) -> Kind:
        """Return what this says of it."""
        if self.mixed:
            return Kind.AT_ONE_COMMIT
        if not self.failed:
            return Kind.ALWAYS_PASSES
        return Kind.OVER_COMMITS if self.passed else Kind.ALWAYS_FAILS


def records(tallies: Iterable[Tally]) -> list[Record]:
    """Return the record of each test, the least trusted first.

    In one kind, those come first that failed in the greatest part of their runs.
    """
    found: dict[TestName, Record] = {}
    for tally in tallies:
        before = found.get(tally.test, Record(tally.test))
        found[tally.test] = Record(
            tally.test,
            before.passed + tally.passed,
            before.flaky + tally.flaky,
            before.failed + tally.failed,
            before.mixed + tally.is_mixed,
        )
    return sorted(
        found.values(),
        key=lambda one: (one.kind, -one.doubtful / one.runs, -one.doubtful, one.test),
    )


def codes(runs: Sequence[JoinedRun]) -> list[int]:
    """Return for each run a number for its sources.

    Equal numbers are equal sources. Where these aren't known, they are those of no other run.
    """
    numbers: dict[str, int] = {}
    return [
        -1 - place if run.commit is None else numbers.setdefault(run.commit, len(numbers))
        for place, run in enumerate(runs)
    ]


def tallies(
    runs: Sequence[JoinedRun], ended: Iterable[Ended], names: Mapping[int, TestName]
) -> list[Tally]:
    """Count how often tests passed and failed, by what sources ran; other runs don't count."""
    code, count = codes(runs), len(runs)
    places = {row.run: place for place, run in enumerate(runs) for row in run.rows}
    # Each end is one number, of the test's place and the run's: there may be millions of them.
    tests: dict[int, int] = {}
    passed, failed = array.array("q"), set[int]()
    for test, run, verdict in ended:
        place = places.get(run)
        if place is not None:
            end = tests.setdefault(test, len(tests)) * count + place
            if verdict != "fail":
                passed.append(end)
            if verdict != "pass":
                failed.add(end)
    both = failed.intersection(passed)
    counts: dict[tuple[int, int], list[int]] = {}
    for column, ends in enumerate((once(passed, runs, both), both, failed - both)):
        for end in ends:
            of_test = counts.setdefault((end // count, code[end % count]), [0, 0, 0])
            of_test[column] += 1
    keys = list(tests)
    return [Tally(names[keys[test]], number, *each) for (test, number), each in counts.items()]


def once(passed: Iterable[int], runs: Sequence[JoinedRun], both: Collection[int]) -> Iterator[int]:
    """Return the ends at which a test only passed, each once though several runs count as one."""
    shared, seen = {place for place, run in enumerate(runs) if len(run.rows) > 1}, set[int]()
    for end in passed:
        if end in both or end in seen:
            continue
        if end % len(runs) in shared:
            seen.add(end)
        yield end


def doubtful(tallies: Iterable[Tally]) -> Collection[TestName]:
    """Return the tests that failed, at least at one attempt."""
    return {tally.test for tally in tallies if tally.flaky or tally.failed}
