"""The lines of JSON that libtest, cargo and nextest print, as values.

`parse` makes a value of a line once; the rest of the package speaks of these values alone.
"""

from __future__ import annotations

import dataclasses
import json
from typing import Literal, Union

from rezovamy_runs.json_values import JsonObject
from rezovamy_runs.streams.texts import without_surrogates

SECOND = 10**9
MOST_SECONDS = 10**6
MOST_TESTS = 2**32
# The lines of JSON that cargo prints, by their reasons.
CARGO_REASONS = {
    "compiler-artifact",
    "compiler-message",
    "build-script-executed",
    "build-finished",
    "timing-info",
}

EventKind = Literal["started", "ok", "failed", "ignored", "timeout"]
EVENT_KINDS: dict[object, EventKind] = {
    "started": "started",
    "ok": "ok",
    "failed": "failed",
    "ignored": "ignored",
    "timeout": "timeout",
}


@dataclasses.dataclass(frozen=True)
class NextestBinary:
    """The binary of a suite, as nextest names it in the suite's lines."""

    crate: str
    test_binary: str
    kind: str


@dataclasses.dataclass(frozen=True)
class SuiteCounts:
    """The numbers at the end of a suite; None where the line has none."""

    passed: int | None = None
    failed: int | None = None
    ignored: int | None = None
    measured: int | None = None
    filtered_out: int | None = None


@dataclasses.dataclass(frozen=True)
class SuiteStart:
    """The start of a suite. Libtest starts tests in the order of their names, or shuffles them."""

    test_count: int
    is_sorted: bool
    binary: NextestBinary | None


@dataclasses.dataclass(frozen=True)
class SuiteEnd:
    """The end of a suite."""

    counts: SuiteCounts
    binary: NextestBinary | None


@dataclasses.dataclass(frozen=True)
class TestEvent:
    """The start or the end of a test, or that it is slow (`timeout`) or ignored.

    `taken` are the nanoseconds of its `exec_time`; None where it has none, or none that is a time.
    """

    __test__ = False

    name: str
    kind: EventKind
    taken: int | None = None
    has_bad_time: bool = False
    output: str | None = None
    message: str | None = None
    is_timed_out: bool = False


@dataclasses.dataclass(frozen=True)
class Report:
    """What rustdoc says after the suites of doctests."""


@dataclasses.dataclass(frozen=True)
class CargoMessage:
    """A line of cargo's that names nothing that was built."""


@dataclasses.dataclass(frozen=True)
class Artifact:
    """A line of cargo's that names a target which it built, with the file if that is executable."""

    package_id: str
    target: str
    kind: str
    executable: str | None
    manifest_path: str | None
    is_test: bool


Message = Union[SuiteStart, SuiteEnd, TestEvent, Report, CargoMessage, Artifact]


def parse(text: str) -> Message | None:
    """Return the value of a line; None where it is no such line."""
    try:
        value = json.loads(text)
    except (ValueError, RecursionError):
        return None
    if not isinstance(value, dict):
        return None
    if value.get("type") == "suite":
        return suite_message(value)
    if value.get("type") in ("test", "bench") and isinstance(value.get("name"), str):
        return test_event(value)
    if str(value.get("reason")) in CARGO_REASONS:
        return cargo_message(value)
    return Report() if value.get("type") == "report" else None


def suite_message(value: JsonObject) -> SuiteStart | SuiteEnd | None:
    """Return the start or the end of a suite."""
    binary = nextest_binary(value.get("nextest"))
    if value.get("event") == "started":
        count = whole(value.get("test_count")) or 0
        count = count if 0 <= count < MOST_TESTS else 0
        return SuiteStart(count, "shuffle_seed" not in value, binary)
    if value.get("event") not in ("ok", "failed"):
        return None
    counts = SuiteCounts(
        passed=whole(value.get("passed")),
        failed=whole(value.get("failed")),
        ignored=whole(value.get("ignored")),
        measured=whole(value.get("measured")),
        filtered_out=whole(value.get("filtered_out")),
    )
    return SuiteEnd(counts, binary)


def nextest_binary(value: object) -> NextestBinary | None:
    """Return the binary that the lines of a suite name; None where nothing says so."""
    if not isinstance(value, dict):
        return None
    crate, binary, kind = (text_or_none(value.get(key)) for key in ("crate", "test_binary", "kind"))
    if crate is None or binary is None or kind is None:
        return None
    return NextestBinary(*map(without_surrogates, (crate, binary, kind)))


def test_event(value: JsonObject) -> TestEvent | None:
    """Return what a line says of a test or a benchmark, of which it only says that it ended."""
    kind = "ok" if value["type"] == "bench" else EVENT_KINDS.get(text_or_none(value.get("event")))
    name = text_or_none(value.get("name"))
    if kind is None or name is None:
        return None
    taken, message = nanoseconds(value.get("exec_time")), text_or_none(value.get("message"))
    return TestEvent(
        without_surrogates(name),
        kind,
        taken,
        taken is None and "exec_time" in value,
        text_or_none(value.get("stdout")),
        None if message is None else without_surrogates(message),
        value.get("reason") == "time limit exceeded",
    )


def cargo_message(value: JsonObject) -> Artifact | CargoMessage:
    """Return what a line of cargo's says was built."""
    target, package = value.get("target"), text_or_none(value.get("package_id"))
    if value["reason"] != "compiler-artifact" or not isinstance(target, dict) or package is None:
        return CargoMessage()
    name, kinds, profile = (
        text_or_none(target.get("name")),
        target.get("kind"),
        value.get("profile"),
    )
    if name is None or not isinstance(kinds, list) or not kinds:
        return CargoMessage()
    return Artifact(
        package,
        name,
        str(kinds[0]),
        text_or_none(value.get("executable")),
        text_or_none(value.get("manifest_path")),
        isinstance(profile, dict) and profile.get("test") is True,
    )


def text_or_none(value: object) -> str | None:
    """Return a value that is a text; None for any other."""
    return value if isinstance(value, str) else None


def whole(value: object) -> int | None:
    """Return a value that is a whole number; None for any other, also for true and false."""
    return value if isinstance(value, int) and not isinstance(value, bool) else None


def nanoseconds(value: object) -> int | None:
    """Return the nanoseconds of a number of seconds; None where it is no time."""
    if isinstance(value, bool) or not isinstance(value, (int, float)):
        return None
    return round(value * SECOND) if 0 <= value <= MOST_SECONDS else None
