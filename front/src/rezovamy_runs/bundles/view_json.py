"""The JSON of a view and of what it has of a log; docs/FORMATS.md describes it."""

from __future__ import annotations

from typing import NotRequired, TypeAlias, TypedDict

Instant = TypedDict("Instant", {"secs": int, "nanos": int, "offset": int})
Length = TypedDict("Length", {"secs": int, "nanos": int})
Stretch: TypeAlias = tuple[Instant, Instant]

TestInstance = TypedDict("TestInstance", {"binary-id": str, "test-name": str})
RetryData = TypedDict("RetryData", {"attempt": int, "total-attempts": int})
StressIndex = TypedDict("StressIndex", {"current": int})

# How an attempt ended: a word, or an object with one member.
Signal = TypedDict("Signal", {"signal": int, "name": NotRequired[str | None]})
Failure = TypedDict("Failure", {"exit-code": int, "abort": Signal}, total=False)
Failed = TypedDict("Failed", {"failure": Failure, "leaked": bool})
ResultObject = TypedDict("ResultObject", {"leak": str, "timeout": str, "fail": Failed}, total=False)
Result: TypeAlias = str | ResultObject

# What was captured: the word `empty`, or the name of a file of the store.
Truncated = TypedDict("Truncated", {"file-name": str, "original-size": int})
StoredOutput = TypedDict("StoredOutput", {"full": str, "truncated": Truncated}, total=False)
Output: TypeAlias = str | StoredOutput
SplitOutput = TypedDict(
    "SplitOutput", {"stdout": Output | None, "stderr": Output | None}, total=False
)
Streams = TypedDict("Streams", {"split": SplitOutput, "combined": Output}, total=False)
Captured = TypedDict("Captured", {"output": Streams, "errors": NotRequired[list[str]]})
Execution = TypedDict("Execution", {"output": Captured, "start-error": str}, total=False)
ErrorSummary = TypedDict("ErrorSummary", {"short-message": str, "description": str})

# The status of an attempt, or of a setup script, which has no `retry-data`.
Status = TypedDict(
    "Status",
    {
        "retry-data": NotRequired[RetryData],
        "start-time": Instant,
        "time-taken": Length,
        "is-slow": bool,
        "result": Result,
        "error-summary": NotRequired[ErrorSummary | None],
        "output": Execution,
    },
)


class Timed(TypedDict):
    """What an attempt and a setup script have: when it ran, and how it ended."""

    started: Instant
    ended: NotRequired[Instant]
    status: NotRequired[Status]
    slices: list[Stretch]
    active: NotRequired[int]


Attempt = TypedDict("Attempt", {"slot": NotRequired[int], "retry-data": NotRequired[RetryData]})


class TimedAttempt(Timed, Attempt):
    """An attempt of a test."""


Test = TypedDict(
    "Test",
    {
        "binary-id": str,
        "test-name": str,
        "verdict": str,
        "attempts": list[TimedAttempt],
        "stress-index": NotRequired[StressIndex],
        "reason": NotRequired[str],
    },
)
ScriptNames = TypedDict(
    "ScriptNames", {"script-id": str, "index": int, "stress-index": NotRequired[StressIndex]}
)


class Script(Timed, ScriptNames):
    """A setup script."""


Slow = TypedDict(
    "Slow",
    {"timestamp": Instant, "test-instance": NotRequired[TestInstance], "index": NotRequired[int]},
)


class Cancelled(TypedDict):
    """The event with which a run is about to be cancelled."""

    timestamp: Instant
    reason: str


class ScriptStarted(TypedDict):
    """The event with which a setup script starts."""

    program: str
    args: list[str]


RunStarted = TypedDict("RunStarted", {"profile-name": str, "cli-args": list[str]})
RunFinished = TypedDict("RunFinished", {"run-elapsed": Length})
RunStatus = TypedDict("RunStatus", {"status": str, "exit-code": NotRequired[int | None]})
Info = TypedDict(
    "Info",
    {
        "run-id": str,
        "nextest-version": str,
        "started-at": Instant,
        "cli-args": NotRequired[list[str]],
        "parent-run-id": NotRequired[str | None],
        "status": RunStatus,
    },
)
Counts = TypedDict(
    "Counts",
    {
        "passed": int,
        "flaky": int,
        "failed": int,
        "skipped": int,
        "unfinished": int,
        "not-started": int,
        "unnamed": int,
    },
)
View = TypedDict(
    "View",
    {
        "run": Info,
        "begin": NotRequired[Instant],
        "end": NotRequired[Instant],
        "counts": Counts,
        "run-started": list[RunStarted],
        "run-finished": list[RunFinished],
        "tests": list[Test],
        "scripts": list[Script],
        "setup-script-started": list[ScriptStarted],
        "pauses": list[Stretch],
        "slow": list[Slow],
        "cancelled": list[Cancelled],
    },
)


def seconds(time: Instant | Length) -> float:
    """Return an instant since 1970-01-01 UTC, or a length of time, in seconds."""
    return time["secs"] + time["nanos"] / 1e9


def microseconds(time: Instant) -> int:
    """Return an instant in whole microseconds since 1970-01-01 UTC, rounded down."""
    return time["secs"] * 1_000_000 + time["nanos"] // 1000
