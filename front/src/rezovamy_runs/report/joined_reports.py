"""Makes one report of those of runs that count as one: the shards of a group, and reruns."""

from __future__ import annotations

import dataclasses
from collections.abc import Callable, Iterable, Mapping, Sequence

from rezovamy_runs.model import Verdict
from rezovamy_runs.report.run_report import (
    Attempt,
    Case,
    Duration,
    Instant,
    NonSuccess,
    Report,
    Skipped,
)
from rezovamy_runs.report.unfinished import UNFINISHED
from rezovamy_runs.store import as_one
from rezovamy_runs.store.as_one import Counted, Parts

SECOND = 10**9

# A case by its suite and its name.
Key = tuple[str, str]


def joined(reports: Mapping[str, Sequence[Report]], parts: Parts) -> Report:
    """Return one report of those of runs that count as one; some run must have one.

    Failures that don't count are attempts beside the result that does.
    """
    ordered = [report for run_id in as_one.ordered(parts) for report in reports[run_id]]
    cases = as_one.merged(
        parts,
        {run_id: cases_of(of_run) for run_id, of_run in reports.items()},
        joining_by(as_one.again),
        joining_by(as_one.beside),
    )
    suites = {suite.name: suite for report in reversed(ordered) for suite in report.suites}
    names = dict.fromkeys(suite.name for report in ordered for suite in report.suites)
    of_suites: dict[str, list[Case]] = {}
    for (name, _), case in cases.items():
        of_suites.setdefault(name, []).append(case)
    starts = [report.timestamp for report in ordered if report.timestamp]
    return dataclasses.replace(
        ordered[0],
        timestamp=min(starts, key=nanoseconds, default=None),
        time=whole_time(ordered),
        suites=tuple(
            dataclasses.replace(suites[name], cases=tuple(of_suites.get(name, ())))
            for name in names
        ),
    )


def cases_of(reports: Iterable[Report]) -> Mapping[Key, Case]:
    """Return the cases of the reports of a bundle by their names."""
    join = joining_by(as_one.beside)
    return as_one.in_row(
        (
            {(suite.name, case.name): case for suite in report.suites for case in suite.cases}
            for report in reports
        ),
        join,
    )


def joining_by(
    rule: Callable[[Verdict, Verdict], Counted],
) -> Callable[[Case, Case], Case]:
    """Return what makes one case of two of a test by a rule for their verdicts."""

    def join(earlier: Case, later: Case) -> Case:
        """Return one case, with failures of both as attempts."""
        is_later = rule(verdict_of(earlier), verdict_of(later)).is_later
        last, first = (later, earlier) if is_later else (earlier, later)
        if isinstance(last.status, Skipped) or isinstance(first.status, Skipped):
            return last
        attempts = (*first.status.attempts, *failure_of(first), *last.status.attempts)
        return dataclasses.replace(last, status=dataclasses.replace(last.status, attempts=attempts))

    return join


def verdict_of(case: Case) -> Verdict:
    """Return how the test of a case ended."""
    if isinstance(case.status, Skipped):
        return Verdict.SKIP
    if isinstance(case.status, NonSuccess):
        is_unfinished = case.status.fault.type == UNFINISHED
        return Verdict.UNFINISHED if is_unfinished else Verdict.FAIL
    return Verdict.FLAKY if case.status.attempts else Verdict.PASS


def failure_of(case: Case) -> Iterable[Attempt]:
    """Return the failure of a case as an attempt beside another one; nothing if it has none."""
    if isinstance(case.status, NonSuccess) and verdict_of(case) is Verdict.FAIL:
        yield Attempt(case.status.fault, case.timestamp, case.time, case.outputs)


def nanoseconds(time: Instant | Duration) -> int:
    """Return an instant, or a length, as one number."""
    return time.seconds * SECOND + time.nanoseconds


def whole_time(reports: Iterable[Report]) -> Duration | None:
    """Return how long it was from the first start to the last end, None if that isn't known."""
    spans = []
    for report in reports:
        if report.timestamp is None or report.time is None:
            return None
        start = nanoseconds(report.timestamp)
        spans.append((start, start + nanoseconds(report.time)))
    length = max(end for _, end in spans) - min(start for start, _ in spans)
    return Duration(*divmod(length, SECOND))
