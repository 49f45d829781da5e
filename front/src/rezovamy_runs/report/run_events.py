"""What is known of a run beside its report.

That is what never ended, whether the run was broken off, and why tests are ignored. It is read
from the run's view, or from the events of the session that its bundle was made of.
"""

from __future__ import annotations

import dataclasses
import json
from collections.abc import Mapping
from typing import NamedTuple

from rezovamy_runs.json_values import Members, members_of
from rezovamy_runs.model import Attempt, Run, Test, TestName, Verdict
from rezovamy_runs.report.run_report import Instant, instant_of

STRESS = "@stress-"
NO_MESSAGE = "it failed"


class NoEvents(Exception):
    """A file is neither a session nor a bundle, or it is of other runs."""


class TestKey(NamedTuple):
    """The suite of a report that has a test, and the test's name there."""

    suite: str
    name: str


@dataclasses.dataclass(frozen=True)
class RunEvents:
    """What the events of a run say beside its report.

    `missing` has the tests that never ended, each with the instant at which it started, None where
    it never did; `attempts` has what is said of their attempts that failed. Of `unnamed` announced
    tests no event has the name.
    """

    run_id: str
    cancelled: str | None
    reasons: Mapping[TestKey, str]
    missing: Mapping[TestKey, Instant | None]
    attempts: Mapping[TestKey, tuple[str, ...]]
    unnamed: int


@dataclasses.dataclass
class RunReader:
    """Reads the events of one run, from its start or the end of the last one to its end."""

    started: dict[TestKey, Instant | None] = dataclasses.field(default_factory=dict)
    attempts: dict[TestKey, tuple[str, ...]] = dataclasses.field(default_factory=dict)
    reasons: dict[TestKey, str] = dataclasses.field(default_factory=dict)
    cancelled: str | None = None

    def read(self, event: Members) -> RunEvents | None:
        """Read an event, and return the run where this is its end."""
        match event.values.get("kind"):
            case "test-started" | "test-retry-started":
                self.started[test_key(event)] = instant_of(event.inner("timestamp"))
            case "test-attempt-failed-will-retry":
                said = self.attempts.get(test_key(event), ())
                self.attempts[test_key(event)] = (*said, short_message(event))
            case "test-finished":
                self.started.pop(test_key(event), None)
            case "test-skipped":
                message = event.values.get("message")
                if isinstance(message, str):
                    self.reasons[test_key(event)] = message
            case "run-begin-cancel":
                self.cancelled = event.text("reason")
            case "run-finished":
                return self.ended(event)
        return None

    def ended(self, event: Members) -> RunEvents:
        """Return the run, of which the end names tests that weren't seen."""
        total, tests = unseen_of(event)
        named = [TestKey(*test) for test in tests]
        started = {TestKey(key.suite.partition(STRESS)[0], key.name) for key in self.started}
        never_started = {key: None for key in named if key not in started}
        return RunEvents(
            event.text("run-id"),
            self.cancelled,
            self.reasons,
            self.started | never_started,
            self.attempts,
            max(0, total - len(named)),
        )


def of_run(run: Run) -> RunEvents:
    """Return what the view of a run says beside its report."""
    unfinished = [test for test in run.tests if test.verdict is Verdict.UNFINISHED]
    missing: dict[TestKey, Instant | None] = {
        key_of(test): start_of(test.attempts[-1]) for test in unfinished if test.attempts
    }
    return RunEvents(
        run.id,
        run.cancelled_for,
        {},
        {**missing, **{TestKey(*name): None for name in run.never_started}},
        {key_of(test): messages_of(test) for test in unfinished},
        run.unnamed,
    )


def key_of(test: Test) -> TestKey:
    """Return the key of a test."""
    return keyed(test.key, test.stress)


def keyed(test: TestName, stress: int | None) -> TestKey:
    """Return the key of a test that ran in a sub-run, None outside a stress run."""
    sub_run = "" if stress is None else f"{STRESS}{stress}"
    return TestKey(test.binary + sub_run, test.test)


def start_of(attempt: Attempt) -> Instant:
    """Return the instant at which an attempt started, to the microsecond."""
    seconds, micros = divmod(round(attempt.started * 1e6), 10**6)
    return Instant(seconds, 1000 * micros, 0)


def messages_of(test: Test) -> tuple[str, ...]:
    """Return what went wrong in the attempts of a test that failed, in a line each."""
    failed = [attempt for attempt in test.attempts if attempt.ended is not None]
    return tuple(next(iter((one.errors or "").splitlines()), NO_MESSAGE) for one in failed)


def test_name(members: Members) -> TestName:
    """Return the name of a test."""
    return TestName(members.text("binary-id"), members.text("test-name"))


def stress_of(event: Members) -> int | None:
    """Return the number of the sub-run of an event, None outside a stress run."""
    index = event.optional_inner("stress-index")
    return index.whole_number("current") if index else None


def unseen_of(run_end: Members) -> tuple[int, tuple[TestName, ...]]:
    """Return how many tests never started or never ended by a run's end, and the named ones."""
    unseen = run_end.optional_inner("outstanding-not-seen")
    if unseen is None:
        return 0, ()
    names = tuple(map(test_name, unseen.inner_list("not-seen")))
    return unseen.whole_number("total-not-seen"), names


def test_key(event: Members) -> TestKey:
    """Return the key of the test that an event is of."""
    return keyed(test_name(event.inner("test-instance")), stress_of(event))


def short_message(event: Members) -> str:
    """Return what an event says of its attempt that failed."""
    summary = event.inner("run-status").optional_inner("error-summary")
    message = summary.optional_text("short-message") if summary else None
    return NO_MESSAGE if message is None else message


def of_session(data: bytes) -> list[RunEvents]:
    """Return the runs that ended in a session, in the order of its reports."""
    runs, reader = [], RunReader()
    try:
        for line in data.split(b"\n")[1:]:
            run = reader.read(members_of(json.loads(line))) if line.strip() else None
            if run is not None:
                runs.append(run)
                reader = RunReader()
    except (RecursionError, ValueError) as error:
        raise NoEvents(f"no session and no bundle: {error}") from error
    return runs
