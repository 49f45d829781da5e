"""How the tests of a run ended in the runs before it, as the page's JSON value.

Most tests share their marks, so each different text of marks stands in it once. A time takes two
characters, whatever it is: so the page of ten thousand tests stays small.
"""

from __future__ import annotations

import dataclasses
import math
from collections.abc import Iterable, Mapping
from typing import NotRequired, TypedDict

from rezovamy_runs import formatting
from rezovamy_runs.model import TestName

SHORT_COMMIT = 12
# The digits of a time: how many steps it is above a microsecond, of which 340 make ten times it.
# So a time is exact to half a percent, and the longest one is twelve days.
DIGITS = "0123456789ABCDEFGHIJKLMNOPQRSTUVWXYZabcdefghijklmnopqrstuvwxyz-_"
STEPS, SHORTEST = 340, 1e-6
# A time that isn't known.
NO_TIME = "  "


@dataclasses.dataclass(frozen=True)
class PastRun:
    """A run: when it started, in seconds since 1970, and at which commit."""

    started: float
    commit: str | None = None
    is_changed: bool = False


@dataclasses.dataclass(frozen=True)
class PastTest:
    """A character for each run, as `history` prints it, and the seconds it took there, if known.

    `kind` says what its passes and failures say of it, None if it passed each time.
    """

    marks: str
    seconds: tuple[float | None, ...]
    kind: str | None = None


@dataclasses.dataclass(frozen=True)
class Past:
    """Runs, the oldest first and the page's own the last, and what their tests did."""

    runs: tuple[PastRun, ...]
    tests: Mapping[TestName, PastTest]


class PagePastRun(TypedDict):
    """A run, as the page has it."""

    when: str
    commit: NotRequired[str]
    changed: NotRequired[bool]


class PagePast(TypedDict):
    """Runs with what tests did in them.

    For each test of the page, `tests` has the place of its marks, `times` two characters for each
    run, and `kinds` its kind by its place, if it isn't one that passed each time.
    """

    runs: list[PagePastRun]
    marks: list[str]
    tests: list[int]
    times: str
    kinds: dict[str, str]


def digits_of(seconds: float | None) -> str:
    """Return a time in two characters."""
    if seconds is None:
        return NO_TIME
    steps = round(STEPS * math.log10(max(seconds, SHORTEST) / SHORTEST))
    high, low = divmod(min(steps, len(DIGITS) ** 2 - 1), len(DIGITS))
    return DIGITS[high] + DIGITS[low]


def page_past_run(run: PastRun) -> PagePastRun:
    """Return a run, as the page has it."""
    made: PagePastRun = {"when": formatting.moment(run.started)}
    if run.commit:
        made["commit"] = run.commit[:SHORT_COMMIT]
    if run.is_changed:
        made["changed"] = True
    return made


def page_past(past: Past, tests: Iterable[TestName]) -> PagePast:
    """Return what the page has of the runs before, for its tests in their order."""
    absent = PastTest("-" * len(past.runs), (None,) * len(past.runs))
    found = [past.tests.get(history_name(test), absent) for test in tests]
    places: dict[str, int] = {}
    return {
        "runs": [page_past_run(run) for run in past.runs],
        "tests": [places.setdefault(one.marks, len(places)) for one in found],
        "marks": list(places),
        "times": "".join(digits_of(seconds) for one in found for seconds in one.seconds),
        "kinds": {str(at): one.kind for at, one in enumerate(found) if one.kind is not None},
    }


def history_name(key: TestName) -> TestName:
    """Return what a test is called in the history."""
    return TestName(formatting.name(key.binary), formatting.name(key.test))
