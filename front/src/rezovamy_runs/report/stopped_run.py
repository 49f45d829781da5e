"""The report of a run that was stopped, by its view.

The program reports runs that ended. Of a stopped run this one has the tests that ended.
"""

from __future__ import annotations

import dataclasses

from rezovamy_runs.model import Attempt, Result, Run, Test, Verdict
from rezovamy_runs.report.run_events import RunEvents, key_of, start_of
from rezovamy_runs.report.run_report import (
    Case,
    Duration,
    Fault,
    NonSuccess,
    Outputs,
    Report,
    Skipped,
    Status,
    Success,
    Suite,
)
from rezovamy_runs.report.run_report import Attempt as ReportAttempt

NAME = "nextest-run"
STOPPED = "it was stopped before its end"


def as_stopped(run: RunEvents) -> RunEvents:
    """Return what is known beside the report of a run that was stopped."""
    return dataclasses.replace(run, cancelled=STOPPED)


def report_of(run: Run) -> Report:
    """Return the report of the tests that ended in a run that was stopped."""
    suites: dict[str, list[Case]] = {}
    for test in run.tests:
        if test.verdict is not Verdict.UNFINISHED:
            suites.setdefault(key_of(test).suite, []).append(case_of(test))
    return Report(
        NAME,
        run.id,
        None,
        duration_of(run.elapsed),
        tuple(Suite(name, tuple(cases)) for name, cases in suites.items()),
    )


def case_of(test: Test) -> Case:
    """Return the case of a test that ended, or was skipped."""
    suite, name = key_of(test)
    if not test.attempts:
        return Case(name, suite, status_of(test))
    last = test.attempts[-1]
    return Case(
        name, suite, status_of(test), start_of(last), duration_of(last.seconds), outputs_of(last)
    )


def status_of(test: Test) -> Status:
    """Return how a test ended."""
    if test.verdict is Verdict.SKIP:
        return Skipped(test.reason or "")
    earlier = tuple(attempt_of(one) for one in test.attempts[:-1] if not one.passed)
    if test.verdict is not Verdict.FAIL:
        return Success(earlier)
    return NonSuccess(fault_of(test.attempts[-1]) if test.attempts else NO_FAULT, "rerun", earlier)


NO_FAULT = Fault("failure", "test failure")


def fault_of(attempt: Attempt) -> Fault:
    """Return what went wrong in an attempt."""
    said = attempt.errors or attempt.detail or attempt.result.value
    kind = attempt.result.value if attempt.result is not Result.FAIL else "test failure"
    with_detail = f"{kind} with {attempt.detail}" if attempt.detail else kind
    return Fault("failure", with_detail, said.split("\n", 1)[0], said)


def attempt_of(attempt: Attempt) -> ReportAttempt:
    """Return an attempt before the last one of its test."""
    return ReportAttempt(
        fault_of(attempt), start_of(attempt), duration_of(attempt.seconds), outputs_of(attempt)
    )


def outputs_of(attempt: Attempt) -> Outputs:
    """Return what an attempt printed; bytes that aren't UTF-8 are replaced."""
    out = attempt.stdout if attempt.combined is None else attempt.combined
    texts = [
        None if data is None else data.decode("utf-8", "replace") for data in (out, attempt.stderr)
    ]
    return Outputs(*texts)


def duration_of(seconds: float) -> Duration:
    """Return a length of time."""
    whole, nanos = divmod(round(seconds * 1e9), 10**9)
    return Duration(whole, nanos)
