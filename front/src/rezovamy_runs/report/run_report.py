"""The report of a run, as `rezovamy report` prints it.

docs/FORMATS.md describes it under Report.
"""

from __future__ import annotations

import dataclasses
import json
from typing import Literal, TypeAlias

from rezovamy_runs.json_values import Members, WrongMember, members_of

FaultKind: TypeAlias = Literal["failure", "error"]
RerunKind: TypeAlias = Literal["rerun", "flaky"]
FAULT_KINDS: dict[str, FaultKind] = {"failure": "failure", "error": "error"}
RERUN_KINDS: dict[str, RerunKind] = {"rerun": "rerun", "flaky": "flaky"}


class NoReport(Exception):
    """A line of the input is no report."""


@dataclasses.dataclass(frozen=True)
class Instant:
    """An instant since 1970-01-01 UTC, with the offset of its zone in seconds."""

    seconds: int
    nanoseconds: int
    offset: int


@dataclasses.dataclass(frozen=True)
class Duration:
    """A length of time."""

    seconds: int
    nanoseconds: int


@dataclasses.dataclass(frozen=True)
class Outputs:
    """What a case or an attempt wrote, None where that isn't stored."""

    out: str | None = None
    err: str | None = None


@dataclasses.dataclass(frozen=True)
class Fault:
    """A failure or an error: of which type it is, and what is said of it."""

    kind: FaultKind
    type: str
    message: str | None = None
    description: str | None = None


@dataclasses.dataclass(frozen=True)
class Attempt:
    """An attempt beside the one by which its test is judged."""

    fault: Fault
    timestamp: Instant | None
    time: Duration | None
    outputs: Outputs


@dataclasses.dataclass(frozen=True)
class Success:
    """A case passed, after attempts that didn't."""

    attempts: tuple[Attempt, ...] = ()


@dataclasses.dataclass(frozen=True)
class NonSuccess:
    """A case didn't pass; `rerun_kind` is what its other attempts are called."""

    fault: Fault
    rerun_kind: RerunKind = "rerun"
    attempts: tuple[Attempt, ...] = ()


@dataclasses.dataclass(frozen=True)
class Skipped:
    """A case didn't run."""

    message: str


Status: TypeAlias = Success | NonSuccess | Skipped


@dataclasses.dataclass(frozen=True)
class Case:
    """A test or a setup script of a suite."""

    name: str
    classname: str
    status: Status
    timestamp: Instant | None = None
    time: Duration | None = None
    outputs: Outputs = Outputs()


@dataclasses.dataclass(frozen=True)
class Property:
    """Something that is known of a suite, by its name."""

    name: str
    value: str


@dataclasses.dataclass(frozen=True)
class Suite:
    """The cases of a test binary, or of a setup script."""

    name: str
    cases: tuple[Case, ...]
    properties: tuple[Property, ...] = ()


@dataclasses.dataclass(frozen=True)
class Report:
    """The report of a run."""

    name: str
    run_id: str
    timestamp: Instant | None
    time: Duration | None
    suites: tuple[Suite, ...]


def instant_of(members: Members) -> Instant:
    """Return the instant that an object has."""
    return Instant(*map(members.whole_number, ("secs", "nanos", "offset")))


def optional_instant(members: Members, name: str) -> Instant | None:
    """Return the instant of a member, None where it is missing or null."""
    inner = members.optional_inner(name)
    return instant_of(inner) if inner else None


def optional_duration(members: Members, name: str) -> Duration | None:
    """Return the length of time of a member, None where it is missing or null."""
    inner = members.optional_inner(name)
    return Duration(*map(inner.whole_number, ("secs", "nanos"))) if inner else None


def outputs_of(members: Members) -> Outputs:
    """Return what a case or an attempt wrote."""
    return Outputs(members.optional_text("system-out"), members.optional_text("system-err"))


def fault_of(members: Members) -> Fault:
    """Return the failure or the error that an object describes."""
    kind = FAULT_KINDS.get(members.text("kind"))
    if kind is None:
        raise WrongMember(f"no kind of a fault is called {members.text('kind')!r}")
    return Fault(
        kind,
        members.text("type-text"),
        members.optional_text("message"),
        members.optional_text("description"),
    )


def attempt_of(members: Members) -> Attempt:
    """Return an attempt beside the main one."""
    return Attempt(
        fault_of(members),
        optional_instant(members, "timestamp"),
        optional_duration(members, "time"),
        outputs_of(members),
    )


def non_success_of(members: Members) -> NonSuccess:
    """Return how a case ended that didn't pass."""
    rerun_kind = RERUN_KINDS.get(members.text("rerun-kind"))
    if rerun_kind is None:
        raise WrongMember(f"no kind of a rerun is called {members.text('rerun-kind')!r}")
    attempts = tuple(map(attempt_of, members.inner_list("reruns")))
    return NonSuccess(fault_of(members), rerun_kind, attempts)


def status_of(members: Members) -> Status:
    """Return how a case ended, by the one member that an object has."""
    match list(members.values):
        case ["success"]:
            return Success(tuple(map(attempt_of, members.inner_list("success"))))
        case ["non-success"]:
            return non_success_of(members.inner("non-success"))
        case ["skipped"]:
            return Skipped(members.text("skipped"))
        case names:
            raise WrongMember(f"no status has the members {names}")


def case_of(members: Members) -> Case:
    """Return a case of a suite."""
    return Case(
        members.text("name"),
        members.text("classname"),
        status_of(members.inner("status")),
        optional_instant(members, "timestamp"),
        optional_duration(members, "time"),
        outputs_of(members),
    )


def suite_of(members: Members) -> Suite:
    """Return a suite of a report."""
    properties = members.inner_list("properties")
    return Suite(
        members.text("name"),
        tuple(map(case_of, members.inner_list("cases"))),
        tuple(Property(each.text("name"), each.text("value")) for each in properties),
    )


def report_of(line: str) -> Report:
    """Return the report that a line has as JSON."""
    try:
        members = members_of(json.loads(line))
        for name in ("timestamp", "time"):
            members.required(name)
        return Report(
            members.text("name"),
            members.text("run-id"),
            optional_instant(members, "timestamp"),
            optional_duration(members, "time"),
            tuple(map(suite_of, members.inner_list("suites"))),
        )
    except (RecursionError, ValueError) as error:
        raise NoReport(str(error)) from error
