"""The session of a run of processes: each event, and the numbers."""

from __future__ import annotations

import pytest

from rezovamy_runs.processes.jobs import (
    Cancelled,
    CancelReason,
    Captured,
    Continued,
    Ended,
    Ending,
    Event,
    Exit,
    Finished,
    Job,
    Paused,
    Program,
    Script,
    ScriptEnded,
    ScriptStarted,
    Slow,
    Started,
    Verdict,
)
from rezovamy_runs.runner.process_session import ProcessSession, RunName
from rezovamy_runs.runner.process_statuses import output_of, result_of
from rezovamy_runs.streams.messages import SECOND

BEGIN = 1000 * SECOND
NAME = RunName("550e8400-e29b-41d4-a716-446655440000", "default", ["cargo", "test"])
PROGRAM = Program(("/t/a", "--exact"), "/w", {})
JOBS = [Job("alpha", name, PROGRAM, True) for name in ("t0", "t1")]
SCRIPT = Script("database", Program(("sh", "-c", "start"), "/w", {}))
PASS = Ending(Verdict.PASSED, Exit(0), BEGIN, SECOND)
FAIL = Ending(Verdict.FAILED, Exit(101), BEGIN, SECOND)
Events = list[dict[str, object]]


def session_of(*told: Event, scripts: int = 0) -> tuple[ProcessSession, Events]:
    """Return a session in which this happened, with its events after the first ones."""
    session = ProcessSession(NAME, JOBS, [("alpha", "t2")], scripts, BEGIN)
    first = [event["kind"] for event in session.first_events()]
    assert first == ["run-started", "test-skipped"]
    return session, [event for one in told for event in session.events(one)]


def started(place: int, attempt: int = 1, total: int = 1) -> Started:
    """Return the start of an attempt in the slot of its test."""
    return Started(JOBS[place], attempt, total, place, BEGIN)


def ended(place: int, ending: Ending, attempt: int = 1, more: int | None = None) -> Ended:
    """Return the end of an attempt."""
    total = max(attempt, more or 1)
    return Ended(JOBS[place], attempt, total, place, ending, more, BEGIN + SECOND)


@pytest.mark.parametrize(
    ("verdict", "ended", "leaked", "expected"),
    [
        (Verdict.PASSED, Exit(0), False, "pass"),
        (Verdict.PASSED, Exit(0), True, {"leak": "pass"}),
        (
            Verdict.FAILED,
            Exit(101),
            False,
            {"fail": {"failure": {"exit-code": 101}, "leaked": False}},
        ),
        (
            Verdict.FAILED,
            Exit(101),
            True,
            {"fail": {"failure": {"exit-code": 101}, "leaked": True}},
        ),
        (
            Verdict.NO_RESULT,
            Exit(0),
            False,
            {"fail": {"failure": {"exit-code": 0}, "leaked": False}},
        ),
        (
            Verdict.KILLED,
            Exit(signal=6),
            False,
            {"fail": {"failure": {"abort": {"signal": 6, "name": "SIGABRT"}}, "leaked": False}},
        ),
        (
            Verdict.KILLED,
            Exit(signal=40),
            False,
            {"fail": {"failure": {"abort": {"signal": 40}}, "leaked": False}},
        ),
        (
            Verdict.CANCELLED,
            Exit(signal=2),
            False,
            {"fail": {"failure": {"abort": {"signal": 2, "name": "SIGINT"}}, "leaked": False}},
        ),
        (Verdict.TIMED_OUT, Exit(signal=15), False, {"timeout": "fail"}),
        (Verdict.EXEC_FAILED, None, False, "exec-fail"),
    ],
)
def test_results(verdict: Verdict, ended: Exit | None, leaked: bool, expected: object) -> None:
    assert result_of(Ending(verdict, ended, BEGIN, SECOND, leaked=leaked)) == expected


@pytest.mark.parametrize(
    ("captured", "expected"),
    [
        (Captured(), b""),
        (Captured(b"ok\n", b"", 3), b"ok\n"),
        (Captured(b"ab", b"yz", 4), b"abyz"),
        (Captured(b"ab", b"yz", 10), b"ab\n\n... [truncated 6 bytes] ...\n\nyz"),
    ],
)
def test_outputs(captured: Captured, expected: bytes) -> None:
    printed = output_of(
        Ending(Verdict.PASSED, Exit(0), BEGIN, SECOND, captured, Captured(b"e", b"", 1))
    )
    assert printed == {"output": {"output": {"split": {"stdout": expected.hex(), "stderr": "65"}}}}


def test_a_process_that_could_not_be_started() -> None:
    ending = Ending(Verdict.EXEC_FAILED, None, BEGIN, 0, error="no such file")
    assert output_of(ending) == {"start-error": "no such file"}


@pytest.mark.parametrize(
    ("ending", "counted"),
    [
        (PASS, {"passed": 1}),
        (
            Ending(Verdict.PASSED, Exit(0), BEGIN, SECOND, is_slow=True),
            {"passed": 1, "passed-slow": 1},
        ),
        (Ending(Verdict.PASSED, Exit(0), BEGIN, SECOND, leaked=True), {"passed": 1, "leaky": 1}),
        (FAIL, {"failed": 1}),
        (
            Ending(Verdict.FAILED, Exit(101), BEGIN, SECOND, is_slow=True),
            {"failed": 1, "failed-slow": 1},
        ),
        (Ending(Verdict.NO_RESULT, Exit(0), BEGIN, SECOND), {"failed": 1}),
        (
            Ending(Verdict.TIMED_OUT, Exit(signal=15), BEGIN, SECOND, is_slow=True),
            {"failed-timed-out": 1},
        ),
        (Ending(Verdict.EXEC_FAILED, None, BEGIN, 0), {"exec-failed": 1}),
    ],
)
def test_numbers(ending: Ending, counted: dict[str, int]) -> None:
    session, _ = session_of(started(0), ended(0, ending))
    always = {"initial-run-count": 2, "finished-count": 1, "skipped": 1}
    assert {name: count for name, count in session.counts.items() if count} == always | counted
    assert session.status == (0 if "passed" in counted else 101)


def test_a_test_that_passes_at_its_second_attempt() -> None:
    session, events = session_of(
        started(0, 1, 2), ended(0, FAIL, 1, 2), started(0, 2, 2), ended(0, PASS, 2)
    )
    assert [event["kind"] for event in events] == [
        "test-started",
        "test-attempt-failed-will-retry",
        "test-retry-started",
        "test-finished",
    ]
    statuses = events[-1]["run-statuses"]
    assert isinstance(statuses, dict)
    results = [(one["retry-data"]["attempt"], one["result"]) for one in statuses["statuses"]]
    failed = {"fail": {"failure": {"exit-code": 101}, "leaked": False}}
    assert results == [(1, failed), (2, "pass")]
    assert (session.counts["flaky"], session.counts["passed"], session.status) == (1, 1, 0)


def test_what_never_started() -> None:
    session, events = session_of(
        started(0),
        Cancelled(CancelReason.INTERRUPT, BEGIN),
        ended(0, PASS),
        Finished(0, BEGIN + SECOND),
    )
    unseen = {"not-seen": [{"binary-id": "alpha", "test-name": "t1"}], "total-not-seen": 1}
    assert events[-1]["outstanding-not-seen"] == unseen
    assert session.status_of_run() == {
        "status": "cancelled",
        "initial-run-count": 2,
        "passed": 1,
        "failed": 0,
        "exit-code": 130,
    }


@pytest.mark.parametrize(
    ("reasons", "status"),
    [
        ([CancelReason.TEST_FAILURE], 101),
        ([CancelReason.SETUP_SCRIPT_FAILURE], 101),
        ([CancelReason.INTERRUPT], 130),
        ([CancelReason.SIGNAL], 143),
        ([CancelReason.INTERRUPT, CancelReason.SECOND_SIGNAL], 130),
        ([CancelReason.TEST_FAILURE, CancelReason.SIGNAL], 143),
    ],
)
def test_statuses_of_runs_that_are_cancelled(reasons: list[CancelReason], status: int) -> None:
    session, events = session_of(*(Cancelled(reason, BEGIN) for reason in reasons))
    assert [event["reason"] for event in events] == [str(reason) for reason in reasons]
    assert session.status == status


def test_pauses_and_slow_tests() -> None:
    _, events = session_of(
        started(0),
        Slow(JOBS[0], 1, 1, SECOND, False, BEGIN),
        Paused(BEGIN),
        Continued(BEGIN + SECOND),
    )
    slow, paused, continued = events[1:]
    assert (slow["slow-elapsed"], slow["will-terminate"]) == ({"secs": 1, "nanos": 0}, False)
    assert (paused["kind"], paused["running"]) == ("run-paused", 1)
    assert (continued["kind"], continued["elapsed"]) == ("run-continued", {"secs": 1, "nanos": 0})


@pytest.mark.parametrize(
    ("ending", "counted"),
    [
        (PASS, "setup-scripts-passed"),
        (Ending(Verdict.FAILED, Exit(1), BEGIN, SECOND), "setup-scripts-failed"),
        (Ending(Verdict.EXEC_FAILED, None, BEGIN, 0), "setup-scripts-exec-failed"),
    ],
)
def test_setup_scripts(ending: Ending, counted: str) -> None:
    session, (first, last) = session_of(
        ScriptStarted(SCRIPT, 0, 1, BEGIN),
        ScriptEnded(SCRIPT, 0, 1, ending, BEGIN + SECOND),
        scripts=1,
    )
    for event in (first, last):
        named = {"script-id": "database", "program": "sh", "args": ["-c", "start"]}
        assert {name: event[name] for name in named} == named
        assert (event["index"], event["total"], event["no-capture"]) == (0, 1, False)
    assert session.counts["setup-scripts-finished-count"] == 1
    assert session.counts[counted] == 1
