"""The elements of JUnit XML that a report becomes.

A dialect has what a schema of Jenkins has, or all that quick-junit writes.
"""

from __future__ import annotations

import collections
import dataclasses
import datetime
from collections.abc import Iterable
from typing import Literal, TypeAlias
from xml.etree.ElementTree import Element

from rezovamy_runs.report.junit_texts import ATTRIBUTE_PART, MOST, clean, cut
from rezovamy_runs.report.run_report import (
    Attempt,
    Case,
    Duration,
    Fault,
    FaultKind,
    Instant,
    NonSuccess,
    NoReport,
    Outputs,
    Report,
    RerunKind,
    Skipped,
    Status,
    Success,
    Suite,
)

Dialect: TypeAlias = Literal["jenkins", "nextest"]
Attributes: TypeAlias = dict[str, str | None]

EPOCH = datetime.datetime(1970, 1, 1, tzinfo=datetime.timezone.utc)
DAY = 24 * 3600
RERUN_TAGS: dict[tuple[RerunKind, FaultKind], str] = {
    ("rerun", "failure"): "rerunFailure",
    ("rerun", "error"): "rerunError",
    ("flaky", "failure"): "flakyFailure",
    ("flaky", "error"): "flakyError",
}

# The attributes of each element that a dialect doesn't have.
LEFT_OUT: dict[Dialect, dict[str, set[str]]] = {
    "jenkins": {
        "testsuites": {"uuid", "timestamp"},
        "testsuite": {"disabled"},
        "testcase": {"timestamp"},
        **{tag: {"timestamp", "time"} for tag in RERUN_TAGS.values()},
    },
    "nextest": {"testsuite": {"skipped", "timestamp", "time"}},
}


@dataclasses.dataclass(frozen=True)
class Counts:
    """How many cases there are, and how many did not run, went wrong and failed."""

    tests: int
    skipped: int
    errors: int
    failures: int

    @property
    def attributes(self) -> Attributes:
        """The counts as attributes of a suite."""
        return {
            "tests": str(self.tests),
            "disabled": str(self.skipped),
            "skipped": str(self.skipped),
            "errors": str(self.errors),
            "failures": str(self.failures),
        }


def count(suites: Iterable[Suite]) -> Counts:
    """Count the cases of suites by how they ended."""
    kinds: collections.Counter[str] = collections.Counter()
    for suite in suites:
        for case in suite.cases:
            status = case.status
            kinds["tests"] += 1
            kinds["skipped"] += isinstance(status, Skipped)
            kinds[status.fault.kind if isinstance(status, NonSuccess) else "passed"] += 1
    return Counts(kinds["tests"], kinds["skipped"], kinds["error"], kinds["failure"])


def has_failed(report: Report) -> bool:
    """Return whether a case of a report failed, or is an error."""
    counts = count(report.suites)
    return bool(counts.errors or counts.failures)


def instant_text(instant: Instant | None) -> str | None:
    """Return an instant to the millisecond in its zone, None where no date has it."""
    if instant is None:
        return None
    zone = datetime.timezone.utc
    if abs(instant.offset) < DAY and instant.offset % 60 == 0:
        zone = datetime.timezone(datetime.timedelta(seconds=instant.offset))
    try:
        moment = (EPOCH + datetime.timedelta(seconds=instant.seconds)).astimezone(zone)
    except OverflowError:
        return None
    try:
        moment = moment.replace(microsecond=instant.nanoseconds // 1000)
    except ValueError as error:
        raise NoReport(f"{instant.nanoseconds} nanoseconds are no part of a second") from error
    return moment.isoformat(timespec="milliseconds")


def seconds_text(time: Duration | None) -> str | None:
    """Return a length of time in seconds, rounded to the millisecond."""
    if time is None:
        return None
    milliseconds = (time.seconds * 10**9 + time.nanoseconds + 500_000) // 10**6
    if milliseconds < 0:
        raise NoReport(f"{time} is no length of time")
    return f"{milliseconds // 1000}.{milliseconds % 1000:03}"


def first_start(suite: Suite) -> Instant | None:
    """Return when the first case of a suite started."""
    starts = [case.timestamp for case in suite.cases if case.timestamp is not None]
    if not starts:
        return None
    return min(starts, key=lambda start: (start.seconds, start.nanoseconds))


def whole_time(suite: Suite) -> Duration | None:
    """Return how long all cases of a suite ran."""
    times = [case.time for case in suite.cases if case.time is not None]
    if not times:
        return None
    return Duration(sum(time.seconds for time in times), sum(time.nanoseconds for time in times))


@dataclasses.dataclass(frozen=True)
class JunitWriter:
    """Makes elements in a dialect, with at most so many bytes in a text."""

    dialect: Dialect = "jenkins"
    most_text: int = MOST

    def element(self, tag: str, attributes: Attributes, text: str | None = None) -> Element:
        """Return an element, without attributes that have no value or aren't of the dialect."""
        left_out = LEFT_OUT[self.dialect].get(tag, set())
        made = Element(tag)
        for name, value in attributes.items():
            if value is not None and name not in left_out:
                made.set(name, cut(clean(value), self.most_text // ATTRIBUTE_PART))
        made.text = None if text is None else cut(clean(text), self.most_text)
        return made

    def report(self, report: Report) -> Element:
        """Return the root of a report's XML."""
        counts = count(report.suites).attributes
        attributes = {
            "name": report.name,
            **{name: counts[name] for name in ("tests", "failures", "errors")},
            "uuid": report.run_id,
            "timestamp": instant_text(report.timestamp),
            "time": seconds_text(report.time),
        }
        root = self.element("testsuites", attributes)
        root.extend([self.suite(suite) for suite in report.suites])
        return root

    def suite(self, suite: Suite) -> Element:
        """Return the element of a suite, with its properties first."""
        span = {
            "timestamp": instant_text(first_start(suite)),
            "time": seconds_text(whole_time(suite)),
        }
        made = self.element("testsuite", {"name": suite.name, **count([suite]).attributes, **span})
        if suite.properties:
            properties = self.element("properties", {})
            for each in suite.properties:
                attributes: Attributes = {"name": each.name, "value": each.value}
                properties.append(self.element("property", attributes))
            made.append(properties)
        made.extend([self.case(case) for case in suite.cases])
        return made

    def case(self, case: Case) -> Element:
        """Return the element of a case."""
        attributes = {
            "name": case.name,
            "classname": case.classname,
            "timestamp": instant_text(case.timestamp),
            "time": seconds_text(case.time),
        }
        made = self.element("testcase", attributes)
        made.extend(self.status(case.status))
        made.extend(self.outputs(case.outputs))
        return made

    def status(self, status: Status) -> list[Element]:
        """Return the elements that say how a case ended."""
        match status:
            case Skipped(message):
                return [self.element("skipped", {"message": message})]
            case Success(attempts):
                return [self.attempt("flaky", attempt) for attempt in attempts]
            case NonSuccess(fault, rerun_kind, attempts):
                main = self.fault(fault.kind, fault, {})
                return [
                    main,
                    *(self.attempt(rerun_kind, attempt) for attempt in attempts),
                ]

    def attempt(self, rerun_kind: RerunKind, attempt: Attempt) -> Element:
        """Return the element of an attempt beside the main one."""
        attributes = {
            "timestamp": instant_text(attempt.timestamp),
            "time": seconds_text(attempt.time),
        }
        made = self.fault(RERUN_TAGS[rerun_kind, attempt.fault.kind], attempt.fault, attributes)
        made.extend(self.outputs(attempt.outputs))
        return made

    def fault(self, tag: str, fault: Fault, attributes: Attributes) -> Element:
        """Return the element of a failure or an error.

        Readers show message and text, so what nothing describes is described by its type.
        """
        message = fault.message or fault.type
        attributes = {**attributes, "message": message, "type": fault.type}
        return self.element(tag, attributes, fault.description or message)

    def outputs(self, outputs: Outputs) -> list[Element]:
        """Return the elements of what a case or an attempt wrote, where it is stored."""
        texts = (("system-out", outputs.out), ("system-err", outputs.err))
        return [self.element(tag, {}, text) for tag, text in texts if text is not None]
