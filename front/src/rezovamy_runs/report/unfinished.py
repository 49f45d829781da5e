"""Adds to a report what the events of its run say besides."""

from __future__ import annotations

import dataclasses
from collections.abc import Iterator

from rezovamy_runs.report.run_events import NoEvents, RunEvents, TestKey
from rezovamy_runs.report.run_report import (
    Case,
    Fault,
    Instant,
    NonSuccess,
    Report,
    Skipped,
    Suite,
)

RUN = "(run)"
# What the error of a test is called that never ended.
UNFINISHED = "unfinished test"


def with_events(report: Report, run: RunEvents) -> Report:
    """Return the report with its tests' reasons, and with an error for all that never ended."""
    if report.run_id != run.run_id:
        raise NoEvents(f"the events are of the run {run.run_id}, the report of another one")
    suites = [
        dataclasses.replace(
            suite, cases=tuple(with_reason(suite, case, run) for case in suite.cases)
        )
        for suite in report.suites
    ]
    unfinished = [unfinished_test(key, start, run) for key, start in run.missing.items()]
    return dataclasses.replace(
        report, suites=with_cases(suites, [*unfinished, *unfinished_run(run)])
    )


def with_reason(suite: Suite, case: Case, run: RunEvents) -> Case:
    """Return the case, which says why it was skipped where an event does."""
    reason = run.reasons.get(TestKey(suite.name, case.name))
    if reason is None or not isinstance(case.status, Skipped):
        return case
    return dataclasses.replace(case, status=Skipped(f"{case.status.message}: {reason}"))


def with_cases(suites: list[Suite], cases: list[Case]) -> tuple[Suite, ...]:
    """Return the suites, each case in the last one of its name, or in a new one."""
    added: dict[str, list[Case]] = {}
    for case in cases:
        added.setdefault(case.classname, []).append(case)
    places = {suite.name: place for place, suite in enumerate(suites)}
    made = list(suites)
    for name, more in added.items():
        if name in places:
            suite = made[places[name]]
            made[places[name]] = dataclasses.replace(suite, cases=(*suite.cases, *more))
        else:
            made.append(Suite(name, tuple(more)))
    return tuple(made)


def unfinished_test(key: TestKey, start: Instant | None, run: RunEvents) -> Case:
    """Return the case of a test that never ended."""
    how = "started, and no event says how it ended" if start else "was announced, and never started"
    broken_off = f"; the run was broken off ({run.cancelled})" if run.cancelled else ""
    lines = [
        f"attempt {number}: {message}"
        for number, message in enumerate(run.attempts.get(key, ()), 1)
    ]
    return error_case(key, UNFINISHED, [f"the test {how}{broken_off}", *lines], start)


def unfinished_run(run: RunEvents) -> Iterator[Case]:
    """Yield the case of a run that was broken off, or of which no event names all tests."""
    lines = [f"the run was broken off ({run.cancelled})"] if run.cancelled else []
    if run.unnamed:
        lines.append(f"{run.unnamed} announced tests never started, and no event names them")
    if lines:
        yield error_case(TestKey(RUN, RUN), "unfinished run", lines)


def error_case(key: TestKey, kind: str, lines: list[str], start: Instant | None = None) -> Case:
    """Return a case that is an error, of which the first line is the message."""
    fault = Fault("error", kind, lines[0], "\n".join(lines))
    return Case(key.name, key.suite, NonSuccess(fault), start)
