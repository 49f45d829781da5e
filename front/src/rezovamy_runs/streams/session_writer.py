"""Writes a run as the lines of a session: the head, and the events in order."""

from __future__ import annotations

import dataclasses
import heapq
from typing import Literal, NamedTuple

from rezovamy_runs.json_values import JsonObject
from rezovamy_runs.streams.messages import SECOND
from rezovamy_runs.streams.run_state import CancelReason, RunState
from rezovamy_runs.streams.session_json import HEAD, event, instant, span, stats
from rezovamy_runs.streams.test_runs import Attempt, Mark, TestRun

NEXTEST_VERSION = "0.9.111"
# What a shell answers of a command that a signal has ended.
CANCELLED_STATUS: dict[CancelReason, int] = {"interrupt": 130, "signal": 143}
# What nextest and cargo answer where a test has failed.
NEXTEST_FAILED, CARGO_FAILED = 100, 101

Suites = dict[str, list[str]]


@dataclasses.dataclass(frozen=True)
class SessionOptions:
    """What the head of a session has besides what the lines tell.

    The exit code is None where nothing says what cargo answered. `cli_args` are the words with
    which the run was started, None where they aren't known.
    """

    run_id: str
    profile: str = "default"
    nextest_version: str = NEXTEST_VERSION
    exit_code: int | None = None
    cli_args: list[str] | None = None


@dataclasses.dataclass(frozen=True)
class SessionLines:
    """The values of the lines of a session, with what its head says."""

    head: JsonObject
    events: list[JsonObject]
    suites: Suites
    exit_code: int | None

    def values(self) -> list[JsonObject]:
        """Return the values of the lines."""
        return [self.head, *self.events]


class Step(NamedTuple):
    """Something that happened to an attempt of a test, or that it was skipped."""

    mark: Mark
    kind: Literal["skipped", "started", "slow", "ended"]
    test: TestRun
    place: int = 0


def moment(nanoseconds: int) -> dict[str, int]:
    """Return an instant."""
    return instant(*divmod(nanoseconds, SECOND))


def length(nanoseconds: int) -> dict[str, int]:
    """Return a length of time."""
    return span(*divmod(nanoseconds, SECOND))


def steps_of(test: TestRun) -> list[Step]:
    """Return what happened to a test."""
    if test.skipped:
        return [Step(test.skipped, "skipped", test)]
    found = []
    for place, attempt in enumerate(test.attempts):
        found.append(Step(attempt.start, "started", test, place))
        if attempt.slow:
            found.append(Step(attempt.slow, "slow", test, place))
        if attempt.end:
            found.append(Step(attempt.end, "ended", test, place))
    return found


def instance_of(test: TestRun) -> dict[str, str]:
    """Return what names a test in a session."""
    return {"binary-id": test.binary_id, "test-name": test.name}


def result_of(attempt: Attempt) -> str | JsonObject:
    """Return how an attempt ended, as a session has it."""
    ending = attempt.ending
    if attempt.result == "passed":
        return "pass"
    if attempt.result == "failed-timed-out":
        return {"timeout": "fail"}
    if ending.signal is None:
        return {"fail": {"failure": {"exit-code": ending.code}, "leaked": False}}
    abort: JsonObject = {"signal": ending.signal}
    if ending.signal_name:
        abort["name"] = ending.signal_name
    return {"fail": {"failure": {"abort": abort}, "leaked": False}}


def retry_data(test: TestRun, place: int) -> dict[str, int]:
    """Return which attempt of a test this is."""
    return {"attempt": place + 1, "total-attempts": len(test.attempts)}


def status_of(test: TestRun, place: int) -> JsonObject:
    """Return an attempt that ended, as a session has it."""
    attempt = test.attempts[place]
    captured = attempt.output
    outputs: JsonObject = {"split": {}} if captured is None else {"combined": captured}
    output: JsonObject = {"output": outputs}
    status: JsonObject = {
        "retry-data": retry_data(test, place),
        "output": {"output": output},
        "result": result_of(attempt),
        "start-time": moment(attempt.start.time),
        "time-taken": length(attempt.taken),
        "is-slow": attempt.slow is not None,
        "delay-before-start": length(delay_of(test, place)),
    }
    if attempt.errors:
        output["errors"] = attempt.errors
        described = "\n".join(attempt.errors)
        status["error-summary"] = {
            "short-message": attempt.errors[0],
            "description": described,
        }
    return status


def delay_of(test: TestRun, place: int) -> int:
    """Return how long an attempt started after the one before it ended."""
    if place == 0:
        return 0
    return test.attempts[place].start.time - test.attempts[place - 1].ended.time


class EventWriter:
    """Makes the events of a session, in the order of their instants."""

    def __init__(self, run: RunState, begin: int) -> None:
        self.begin, self.cancel_reason = begin, run.cancel_reason
        self.to_run = [test for test in run.timeline.tests if test.skipped is None]
        # A binary that ran again says itself what it hasn't seen.
        unseen = {binary.id: binary.unseen() for binary in run.binaries}
        self.unseen = sum(unseen.values())
        self.counts = stats(len(self.to_run) + self.unseen)
        self._slots: dict[TestRun, int] = {}
        self._free_slots: list[int] = []

    def event_of(self, step: Step) -> JsonObject:
        """Return the event of a step."""
        match step.kind:
            case "skipped":
                return self._skipped(step)
            case "started":
                return self._started(step)
            case "slow":
                return self._slow(step)
            case _:
                return self._ended(step)

    def run_event(self, kind: str, instant: int, **fields: object) -> JsonObject:
        """Return an event of the run."""
        return event(kind, moment(instant), elapsed=length(instant - self.begin), **fields)

    def _test_event(self, kind: str, step: Step, **fields: object) -> JsonObject:
        instance = instance_of(step.test)
        return self.run_event(kind, step.mark.time, test_instance=instance, **fields)

    def _started(self, step: Step) -> JsonObject:
        slot = heapq.heappop(self._free_slots) if self._free_slots else len(self._slots)
        self._slots[step.test] = slot
        more: JsonObject = {"current_stats": dict(self.counts)}
        if step.place:
            more = {"retry_data": retry_data(step.test, step.place)}
        return self._test_event(
            "test-retry-started" if step.place else "test-started",
            step,
            running=len(self._slots),
            slot_assignment={"global-slot": slot, "test-group": "@global"},
            command_line=[],
            **more,
        )

    def _slow(self, step: Step) -> JsonObject:
        return self._test_event(
            "test-slow",
            step,
            retry_data=retry_data(step.test, step.place),
            slow_elapsed=length(step.mark.time - step.test.attempts[step.place].start.time),
            will_terminate=False,
        )

    def _skipped(self, step: Step) -> JsonObject:
        """Return the event of a skipped test.

        No reader of a session keeps why the test is ignored, but `junit_xml` says it.
        """
        self.counts["skipped"] += 1
        message: JsonObject = {"message": step.test.reason} if step.test.reason else {}
        return self._test_event(
            "test-skipped",
            step,
            reason="ignored",
            junit_report_skipped="all",
            **message,
        )

    def _ended(self, step: Step) -> JsonObject:
        """Return the end of an attempt.

        Its slot is free then, also where the test is tried again, which may be much later.
        """
        test = step.test
        heapq.heappush(self._free_slots, self._slots.pop(test))
        if step.place + 1 < len(test.attempts):
            return self._test_event(
                "test-attempt-failed-will-retry",
                step,
                run_status=status_of(test, step.place),
                delay_before_next_attempt=length(delay_of(test, step.place + 1)),
                failure_output="immediate",
                running=len(self._slots),
            )
        self._count(test)
        statuses = [status_of(test, place) for place in range(len(test.attempts))]
        return self._test_event(
            "test-finished",
            step,
            success_output="never",
            failure_output="immediate",
            junit_store_success_output=False,
            junit_store_failure_output=True,
            junit_flaky_fail_status="failure",
            run_statuses={"statuses": statuses, "flaky-result": "pass"},
            current_stats=dict(self.counts),
            running=len(self._slots),
        )

    def _count(self, test: TestRun) -> None:
        """Count a test that ended by its last attempt."""
        last = test.last
        self.counts["finished-count"] += 1
        self.counts[last.result or "failed"] += 1
        if last.slow and last.result != "failed-timed-out":
            self.counts[f"{last.result}-slow"] += 1
        if last.result == "passed" and len(test.attempts) > 1:
            self.counts["flaky"] += 1

    def missing(self) -> JsonObject:
        """Return what was announced and never ended."""
        running = [instance_of(test) for test in self.to_run if test.is_running()]
        total = len(running) + self.unseen
        unseen = {"not-seen": running, "total-not-seen": total}
        return {"outstanding_not_seen": unseen} if total else {}

    def end_of_run(self, end: int, run_id: str) -> list[JsonObject]:
        """Return the run's end, after its cancellation where it was broken off."""
        counts: JsonObject = dict(self.counts)
        events = []
        if self.cancel_reason:
            counts["cancel-reason"] = self.cancel_reason
            cancelled = self.run_event(
                "run-begin-cancel",
                end,
                setup_scripts_running=0,
                running=len(self._slots),
                reason=self.cancel_reason,
            )
            events.append(cancelled)
        finished = self.run_event(
            "run-finished",
            end,
            run_id=run_id,
            start_time=moment(self.begin),
            run_elapsed=length(end - self.begin),
            run_stats={"single": counts},
            **self.missing(),
        )
        return [*events, finished]


def exit_code_of(run: RunState, writer: EventWriter, answered: int | None) -> int | None:
    """Return how the run ended; None where `nextest` didn't tell its end."""
    cancelled = writer.cancel_reason
    is_open = any(binary.suite for binary in run.binaries)
    if run.is_nextest and not cancelled and (writer.missing() or is_open):
        return None
    if answered is not None:
        return answered
    if cancelled:
        return CANCELLED_STATUS[cancelled]
    failed = NEXTEST_FAILED if run.is_nextest else CARGO_FAILED
    return failed if failures_of(writer) else 0


def failures_of(writer: EventWriter) -> int:
    """Count the tests that failed."""
    return writer.counts["failed"] + writer.counts["failed-timed-out"]


def status_of_run(writer: EventWriter, exit_code: int | None) -> JsonObject:
    """Return how the run ended, for the head."""
    if exit_code is None:
        return {"status": "incomplete"}
    return {
        "status": "cancelled" if writer.cancel_reason else "completed",
        "initial-run-count": writer.counts["initial-run-count"],
        "passed": writer.counts["passed"],
        "failed": failures_of(writer),
        "exit-code": exit_code,
    }


def suites_of(run: RunState) -> dict[str, list[str]]:
    """Return the names of the tests by binary, in the order in which they came."""
    suites: dict[str, dict[str, None]] = {binary.id: {} for binary in run.binaries}
    for test in run.timeline.tests:
        suites[test.binary_id][test.name] = None
    return {binary_id: list(names) for binary_id, names in suites.items()}


def session_lines(run: RunState, options: SessionOptions) -> SessionLines:
    """Return the lines of the session of a run in which something happened."""
    steps = [step for test in run.timeline.tests for step in steps_of(test)]
    steps.sort(key=lambda step: step.mark)
    first = run.timeline.clock.now if run.first_event is None else run.first_event
    begin = min([first, *(step.mark.time for step in steps[:1])])
    end = max([run.timeline.clock.now, *(step.mark.time for step in steps[-1:])])
    writer = EventWriter(run, begin)
    words = options.cli_args
    profile, started_with = options.profile, [] if words is None else words
    run_id = options.run_id
    started = writer.run_event(
        "run-started", begin, run_id=run_id, profile_name=profile, cli_args=started_with
    )
    events = [started, *map(writer.event_of, steps)]
    events += writer.end_of_run(end, run_id)
    exit_code, suites = exit_code_of(run, writer, options.exit_code), suites_of(run)
    made: JsonObject = {
        **HEAD,
        "run-id": run_id,
        "nextest-version": options.nextest_version,
        "status": status_of_run(writer, exit_code),
        "started-at": moment(begin),
        "last-written-at": moment(end),
        "duration": length(end - begin),
        "test-list": {"suites": suites},
        **({} if words is None else {"cli-args": words}),
    }
    return SessionLines(made, events, suites, exit_code)
