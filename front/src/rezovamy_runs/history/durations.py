"""Which tests take longest, and which have become slower; all times are active times."""

from __future__ import annotations

import dataclasses
import statistics
from collections.abc import Mapping, Sequence

from rezovamy_runs.history.joining import JoinedRun
from rezovamy_runs.history.outcomes import FEWEST_TIMES, LEAST, Outcome
from rezovamy_runs.model import TestName

FEWEST_FOR_ENDS = 5

OutcomesOfRuns = Sequence[Mapping[TestName, Outcome]]


@dataclasses.dataclass(frozen=True)
class Slow:
    """How long a test takes over runs in which it passed."""

    test: TestName
    usual: float
    longest: float
    last: float
    # Which part of the usual times of all tests it is, from 0 to 1.
    share: float


@dataclasses.dataclass(frozen=True)
class Slowed:
    """A test that takes longer in the latest runs than it did before."""

    test: TestName
    before: float
    now: float
    spread: float
    # The first of the runs at the end that all took longer than usual.
    since: JoinedRun


def passing_times(runs: OutcomesOfRuns) -> dict[TestName, list[tuple[int, float]]]:
    """Return for each test the places of the runs in which it passed, with its times there."""
    found: dict[TestName, list[tuple[int, float]]] = {}
    for place, outcomes in enumerate(runs):
        for test, outcome in outcomes.items():
            if outcome.is_good:
                found.setdefault(test, []).append((place, outcome.seconds))
    return found


def slowest(runs: OutcomesOfRuns) -> list[Slow]:
    """Return how long each test takes, the one that usually takes longest first."""
    times = {test: [seconds for _, seconds in told] for test, told in passing_times(runs).items()}
    usual = {test: statistics.median(told) for test, told in times.items()}
    total = sum(usual.values())
    found = [
        Slow(test, usual[test], max(told), told[-1], usual[test] / total if total else 0.0)
        for test, told in times.items()
    ]
    return sorted(found, key=lambda one: (-one.usual, one.test))


def slower(runs: Sequence[JoinedRun], outcomes: OutcomesOfRuns, latest: int) -> list[Slowed]:
    """Return the tests that take longer in the latest runs than before, by the most first."""
    begin = len(runs) - latest
    found = []
    for test, told in passing_times(outcomes).items():
        before = [seconds for place, seconds in told if place < begin]
        now = [(place, seconds) for place, seconds in told if place >= begin]
        if min(len(before), len(now)) >= FEWEST_TIMES:
            judged = slowed(test, runs, before, now, told)
            found += [judged] if judged else []
    return sorted(found, key=lambda one: (one.before - one.now, one.test))


def spread_of(times: Sequence[float]) -> float:
    """Return how much times differ usually.

    Of five or more the tenth at each end doesn't count, at least one: a single slow run says
    little, and may be the first of those that stay slow.
    """
    ordered = sorted(times)
    left_out = max(1, len(ordered) // 10) if len(ordered) >= FEWEST_FOR_ENDS else 0
    return ordered[-1 - left_out] - ordered[left_out]


def slowed(
    test: TestName,
    runs: Sequence[JoinedRun],
    before: Sequence[float],
    now: Sequence[tuple[int, float]],
    told: Sequence[tuple[int, float]],
) -> Slowed | None:
    """Return by how much a test became slower; None if its times differ as much anyway."""
    usual, spread = statistics.median(before), spread_of(before)
    limit = usual + max(spread, LEAST)
    median = statistics.median(seconds for _, seconds in now)
    if median <= limit:
        return None
    since = now[-1][0]
    for place, seconds in reversed(told):
        if seconds <= limit:
            break
        since = place
    return Slowed(test, usual, median, spread, runs[since])
