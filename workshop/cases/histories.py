"""A short language for the history of a run, of which traces are drawn.

Tests, setup scripts, slots and counts are numbers. The first two tests are of one binary, the
others of another. What an event says of the number of tests that run is how many attempts were
started and not ended in the lines so far.
"""

from __future__ import annotations

import dataclasses
from collections.abc import Iterable

from workshop.cases.events import (
    NOT_STARTED,
    attempt_failed,
    attempt_of,
    captured,
    course,
    progress,
    retry_started,
    run_finished,
    run_started,
    script_ended,
    script_members,
    script_started,
    slot,
    slow_script,
    slow_test,
    sorted_stats,
    status,
    stopped,
    sub_run_finished,
    sub_run_started,
    test,
    test_finished,
    test_skipped,
    test_started,
)
from workshop.cases.made import (
    INCOMPLETE,
    Members,
    bundle,
    compact,
    duration,
    instant,
    line,
    log_of,
)
from workshop.cases.texts import HEAD, RUN_ID

# The number of tests that run, where an event has it by the lines so far.
RUNNING = object()
# The manifest of a bundle whose trace is drawn.
TRACED_MANIFEST = compact(
    {
        "format-version": {"major": 1, "minor": 1},
        "run": {
            "run-id": RUN_ID,
            "nextest-version": "0.9.111",
            "started-at": instant(1000),
            "last-written-at": instant(1011),
            "status": INCOMPLETE,
            "store-format-version": 3,
            "store-format-minor-version": 1,
            "sizes": {
                "log": {"compressed": 0, "uncompressed": 0},
                "store": {"compressed": 0, "uncompressed": 0},
            },
        },
    }
)


@dataclasses.dataclass(frozen=True)
class Line:
    """An event by its members, and how many attempts more run since the line before.

    Without members it is no event.
    """

    secs: int
    members: Members | None
    nanos: int = 0
    more: int = 0

    def text(self, running: int) -> bytes:
        if self.members is None:
            return b"{}"
        members = {
            name: running if value is RUNNING else value for name, value in self.members.items()
        }
        return line(members, instant(self.secs, self.nanos), 1)


FAULTY = Line(0, None)


def traced_log(lines: Iterable[Line]) -> bytes:
    """The log of these lines."""
    running, written = 0, []
    for one in lines:
        running = max(0, running + one.more)
        written.append(one.text(running))
    return log_of(*written)


def traced_session(lines: Iterable[Line]) -> bytes:
    """The session of these lines."""
    return log_of(HEAD) + traced_log(lines)


def traced_bundle(lines: Iterable[Line]) -> bytes:
    """A bundle whose log has these lines, with a name for an output without bytes.

    It has no store, since a trace needs none.
    """
    logged = traced_log(lines).replace(b'{"combined":""}', b'{"combined":"empty"}')
    return bundle(logged, None, TRACED_MANIFEST)


def counts_of(failed: int) -> Members:
    """The counts of a run of which so many tests failed beside one that could not be executed."""
    return sorted_stats(exec_failed=1, failed=failed, initial_run_count=1)


def event(secs: int, members: Members, nanos: int = 0) -> Line:
    """Any event, by its members."""
    return Line(secs, members, nanos)


def run(secs: int, nanos: int = 0) -> Line:
    """The run starts, so many nanoseconds later."""
    return Line(secs, run_started(), nanos)


def run_end(secs: int) -> Line:
    return Line(secs, run_finished({"single": counts_of(0)}))


def sub_run(secs: int) -> Line:
    return Line(secs, sub_run_started(0, 1))


def sub_run_end(secs: int) -> Line:
    return Line(secs, sub_run_finished(progress(1, 1), duration(1), counts_of(0)))


def script(secs: int, index: int, number: int) -> Line:
    """The setup script of this index starts, under the id of this number."""
    members = script_members(index, 2, f"db{number}")
    return Line(secs, {**members, **script_started(members)})


def script_end(secs: int, index: int, number: int) -> Line:
    members = script_members(index, 2, f"db{number}")
    ended = script_ended(course(NOT_STARTED, "exec-fail", instant(1001), duration(1)), members)
    return Line(secs, {**members, **ended})


def script_slow(secs: int, number: int) -> Line:
    """A setup script of the id of this number is slow."""
    return Line(secs, slow_script(f"db{number}", "sh", duration(1)))


def binary_of(number: int) -> str:
    """The binary of the test of this number."""
    return "alpha::a" if number < 3 else "beta::b"


def numbered(number: int) -> Members:
    """The test of this number."""
    return test(f"t{number}", binary_of(number))


def test_members(number: int) -> Members:
    return {"test-instance": numbered(number)}


def of_number(secs: int, number: int, more: int, members: Members) -> Line:
    """An event of the test of this number, since which so many attempts more run."""
    return Line(secs, {**test_members(number), "running": RUNNING, **members}, more=more)


def start(secs: int, number: int, on: int) -> Line:
    """The test of this number starts on a slot."""
    return of_number(
        secs, number, 1, test_started(numbered(number), slot(on), counts_of(0), RUNNING)
    )


def fail(secs: int, number: int) -> Line:
    """The attempt of this test failed."""
    attempted = status(1, 3, course(NOT_STARTED, "exec-fail", instant(1001), duration(1)))
    return of_number(secs, number, -1, attempt_failed(attempted, numbered(number), running=RUNNING))


def retry(secs: int, number: int, on: int) -> Line:
    """This test starts again."""
    return of_number(
        secs, number, 1, retry_started(numbered(number), slot(on), attempt_of(2, 3), RUNNING)
    )


def end(secs: int, number: int, failed: int) -> Line:
    """This test passed, and so many have failed beside one that could not be executed."""
    passed = status(1, 1, course(captured({"split": {}}), "pass", instant(1001), duration(1)))
    return of_number(
        secs,
        number,
        -1,
        test_finished(
            passed,
            of=numbered(number),
            counts=counts_of(failed),
            stores=(False, True),
            shown="immediate",
            running=RUNNING,
        ),
    )


def slow(secs: int, number: int) -> Line:
    return Line(
        secs, {**test_members(number), **slow_test(numbered(number), attempt_of(1, 2), duration(1))}
    )


def skip(secs: int, number: int) -> Line:
    """The test of this number is skipped."""
    skipped = test_skipped(f"t{number}", "ignored", "none", binary_of(number))
    return Line(secs, {**test_members(number), **skipped})


def stop(secs: int, kind: str, scripts: int, **rest: object) -> Line:
    return Line(
        secs,
        {
            "setup-scripts-running": scripts,
            "running": RUNNING,
            **stopped(kind, scripts, RUNNING, **rest),
        },
    )


def pause(secs: int, scripts: int) -> Line:
    """The run pauses while so many setup scripts run."""
    return stop(secs, "run-paused", scripts)


def go_on(secs: int, scripts: int) -> Line:
    return stop(secs, "run-continued", scripts)


def cancel(secs: int, scripts: int) -> Line:
    return stop(secs, "run-begin-cancel", scripts, reason="signal")


def two_slots(
    first_end: Line = end(1002, 1, 0),
    failure: Line = fail(1007, 2),
    second_end: Line = end(1010, 2, 0),
) -> list[Line]:
    """Two binaries with two tests each on two slots, a pause, and a test that is tried again.

    The first test ends so, an attempt of the second fails so, and this ends so at last.
    """
    return [
        run(1000),
        start(1000, 1, 0),
        start(1001, 2, 1),
        first_end,
        start(1002, 3, 0),
        pause(1003, 0),
        go_on(1006, 0),
        failure,
        retry(1008, 2, 1),
        end(1009, 3, 0),
        second_end,
        start(1010, 4, 1),
        end(1011, 4, 0),
        run_end(1011),
    ]
