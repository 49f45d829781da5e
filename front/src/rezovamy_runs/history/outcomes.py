"""What became of each test in a run, so that runs can be held against each other."""

from __future__ import annotations

import dataclasses
import statistics
from collections.abc import Iterable, Mapping, Sequence

from rezovamy_runs import formatting
from rezovamy_runs.model import Run, Test, TestName, Verdict
from rezovamy_runs.store import as_one

# With fewer times nothing is known of how much they differ usually.
FEWEST_TIMES = 3
# A difference below this says nothing, in seconds.
LEAST = 0.05
# The most characters of what went wrong.
MOST_MESSAGE = 500


@dataclasses.dataclass(frozen=True, slots=True)
class Outcome:
    """How a test ended in a run.

    It has the active time of the last attempt, the number of attempts, and of a test that didn't
    just pass what went wrong, in one line.
    """

    verdict: Verdict
    seconds: float
    attempts: int = 1
    message: str | None = None

    @property
    def was_retried(self) -> bool:
        """Tell whether it was tried again."""
        return self.attempts > 1

    @property
    def is_good(self) -> bool:
        """Tell whether the test passed, at its first attempt or a later one."""
        return self.verdict in as_one.GOOD

    @property
    def has_failed(self) -> bool:
        """Tell whether the test failed."""
        return self.verdict is Verdict.FAIL


# The outcomes of a run's tests.
Outcomes = Mapping[TestName, Outcome]


def outcomes(run: Run) -> Outcomes:
    """Return the outcome of each test.

    Of one that ran more often it is the worst verdict, and the longest time.
    """
    found: dict[TestName, Outcome] = {}
    for test in run.tests:
        key = TestName(formatting.name(test.binary), formatting.name(test.name))
        outcome = outcome_of(test)
        found[key] = worse(outcome, found[key]) if key in found else outcome
    return found


def outcome_of(test: Test) -> Outcome:
    """Return the outcome of a test."""
    return Outcome(test.verdict, test.seconds, max(1, len(test.attempts)), message_of(test))


def message_of(test: Test) -> str | None:
    """Return what went wrong in the last attempt that didn't pass, in one line."""
    for attempt in reversed(test.attempts):
        if not attempt.passed and test.has_finished:
            said = next(filter(None, (attempt.errors or "").splitlines()), "")
            return formatting.name(said or attempt.detail or attempt.result.value)[:MOST_MESSAGE]
    return None


def worse(earlier: Outcome, later: Outcome) -> Outcome:
    """Return the outcome of a test that ran twice in a run: the worse verdict, the longer time."""
    verdict, is_later = as_one.beside(earlier.verdict, later.verdict)
    return Outcome(
        verdict,
        max(earlier.seconds, later.seconds),
        max(earlier.attempts, later.attempts),
        (later if is_later else earlier).message,
    )


def joined(earlier: Outcome, later: Outcome) -> Outcome:
    """Return the outcome of a test of a run, of which a later run tried it again."""
    verdict, is_later = as_one.again(earlier.verdict, later.verdict)
    if not is_later:
        return earlier
    if earlier.verdict in as_one.UNKNOWN:
        return later
    attempts = earlier.attempts + later.attempts
    return Outcome(verdict, later.seconds, attempts, later.message or earlier.message)


@dataclasses.dataclass(frozen=True)
class Slower:
    """A test that took longer in a run than before.

    Besides it has what the test takes usually, and how much that differs.
    """

    key: TestName
    before: float
    after: float
    usual: float
    spread: float


@dataclasses.dataclass(frozen=True)
class Comparison:
    """What differs between two runs; tests stand in the order of their binaries and names."""

    newly_failing: list[TestName]
    fixed: list[TestName]
    still_failing: list[TestName]
    never_ended: list[TestName]
    new: list[TestName]
    gone: list[TestName]
    slower: list[Slower]


def compare(first: Outcomes, second: Outcomes, others: Sequence[Outcomes]) -> Comparison:
    """Hold the outcomes of two runs against each other.

    The others are those of further runs, which say what times are usual.
    """
    both = sorted(first.keys() & second.keys())
    has_failed = {key: (first[key].has_failed, second[key].has_failed) for key in both}
    slower = [judged for key in both if (judged := slowed(key, first, second, others))]
    return Comparison(
        newly_failing=[key for key in both if has_failed[key] == (False, True)],
        fixed=[key for key in both if has_failed[key] == (True, False) and second[key].is_good],
        still_failing=[key for key in both if has_failed[key] == (True, True)],
        never_ended=[key for key in both if second[key].verdict is Verdict.UNFINISHED],
        new=sorted(second.keys() - first.keys()),
        gone=sorted(first.keys() - second.keys()),
        slower=sorted(slower, key=lambda one: one.before - one.after),
    )


def slowed(
    key: TestName, first: Outcomes, second: Outcomes, others: Iterable[Outcomes]
) -> Slower | None:
    """Return by how much a test that passed in both runs became slower.

    It is None where that is no more than its times differ usually.
    """
    if not first[key].is_good or not second[key].is_good:
        return None
    before, after = first[key].seconds, second[key].seconds
    earlier = [other[key] for other in others if key in other]
    times = [before, *(outcome.seconds for outcome in earlier if outcome.is_good)]
    usual = statistics.median(times)
    spread = max(times) - min(times) if len(times) >= FEWEST_TIMES else before / 2
    if after <= max(before, usual) + max(spread, LEAST):
        return None
    return Slower(key, before, after, usual, spread)
