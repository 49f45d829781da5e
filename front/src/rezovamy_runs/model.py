"""What is known of a recorded run: its tests, their attempts, its setup scripts and its pauses.

Instants are seconds since 1970-01-01 UTC, and lengths are seconds, both as floats.
"""

from __future__ import annotations

import dataclasses
import enum
import pathlib
from collections.abc import Mapping
from typing import NamedTuple


class Result(enum.StrEnum):
    """How an attempt of a test, or a setup script, ended."""

    PASS = "pass"
    # It passed, and left something that holds its output open, which counts as a pass or not.
    LEAK = "leak"
    LEAK_FAIL = "leak-fail"
    FAIL = "fail"
    # A signal ended it.
    ABORT = "abort"
    TIMEOUT = "timeout"
    TIMEOUT_PASS = "timeout-pass"
    # It could not be started.
    EXEC_FAIL = "exec-fail"
    # Nothing says how it ended.
    UNFINISHED = "unfinished"


class Verdict(enum.StrEnum):
    """How a test ended over all its attempts."""

    PASS = "pass"
    # It passed at a later attempt.
    FLAKY = "flaky"
    FAIL = "fail"
    SKIP = "skip"
    UNFINISHED = "unfinished"


class Status(enum.StrEnum):
    """How a run ended; only the first four come with an exit code."""

    COMPLETED = "completed"
    CANCELLED = "cancelled"
    STRESS_COMPLETED = "stress-completed"
    STRESS_CANCELLED = "stress-cancelled"
    INCOMPLETE = "incomplete"
    UNKNOWN = "unknown"
    # It goes on, which no bundle says.
    RUNNING = "running"


class Stream(enum.StrEnum):
    """What an output was captured from."""

    STDOUT = "stdout"
    STDERR = "stderr"
    COMBINED = "combined"


PASSING = (Result.PASS, Result.LEAK, Result.TIMEOUT_PASS)
CANCELLED = (Status.CANCELLED, Status.STRESS_CANCELLED)
WITHOUT_END = (Status.INCOMPLETE, Status.UNKNOWN)


# A begin and an end, in whole microseconds since 1970-01-01 UTC.
Slice = tuple[int, int]


class TestName(NamedTuple):
    """What a test is known by: the id of its binary, and its name there."""

    binary: str
    test: str


@dataclasses.dataclass(frozen=True)
class Attempt:
    """A try of a test, or the run of a setup script.

    `detail` has the exit code or the signal. An output that was not captured, or was not asked
    for, is None.
    """

    number: int
    total: int
    started: float
    slot: int | None = None
    result: Result = Result.UNFINISHED
    detail: str = ""
    seconds: float = 0.0
    is_slow: bool = False
    stdout: bytes | None = None
    stderr: bytes | None = None
    combined: bytes | None = None
    errors: str | None = None
    # How many bytes an output had before it was cut.
    truncated: Mapping[str, int] = dataclasses.field(default_factory=dict)
    # When it ran: the stretches that pauses leave.
    slices: tuple[Slice, ...] = ()
    # When it was said to be slow, in whole microseconds since 1970-01-01 UTC.
    slow_at: tuple[int, ...] = ()
    # How many seconds it ran, without pauses; None if its instants don't tell.
    active: float | None = None

    @property
    def passed(self) -> bool:
        """Tell whether it passed."""
        return self.result in PASSING

    @property
    def ended(self) -> float | None:
        """Return the instant at which it ended, None where nothing says so."""
        return None if self.result is Result.UNFINISHED else self.started + self.seconds

    @property
    def outputs(self) -> dict[Stream, bytes]:
        """Return the outputs that are known, by their streams."""
        found = {
            Stream.STDOUT: self.stdout,
            Stream.STDERR: self.stderr,
            Stream.COMBINED: self.combined,
        }
        return {stream: data for stream, data in found.items() if data is not None}


@dataclasses.dataclass(frozen=True)
class Test:
    """A test of a run, in a stress run one for each sub-run; without attempts if it was skipped."""

    # No class of tests, whatever its name says to pytest.
    __test__ = False

    binary: str
    name: str
    verdict: Verdict
    attempts: tuple[Attempt, ...] = ()
    # Why it was skipped, None where it wasn't.
    reason: str | None = None
    # The number of the sub-run of a stress run, from 0.
    stress: int | None = None

    @property
    def key(self) -> TestName:
        """Return what the test is known by."""
        return TestName(self.binary, self.name)

    @property
    def has_finished(self) -> bool:
        """Tell whether the test ran to its end."""
        return self.verdict in (Verdict.PASS, Verdict.FLAKY, Verdict.FAIL)

    @property
    def flaky_fails(self) -> bool:
        """Tell whether the test failed although its last attempt passed."""
        return self.verdict is Verdict.FAIL and bool(self.attempts) and self.attempts[-1].passed

    @property
    def seconds(self) -> float:
        """Return how long the last attempt took."""
        return self.attempts[-1].seconds if self.attempts else 0.0


@dataclasses.dataclass(frozen=True)
class Script:
    """A setup script of a run."""

    id: str
    index: int
    program: str
    args: tuple[str, ...]
    attempt: Attempt
    stress: int | None = None


@dataclasses.dataclass(frozen=True)
class Cancellation:
    """When a run was cancelled, in whole microseconds since 1970-01-01 UTC, and why."""

    at: int
    reason: str


@dataclasses.dataclass(frozen=True)
class Counts:
    """How many tests there were by their verdicts; those that are flaky count as passed too.

    `unseen` are those that were announced, and never started or never ended.
    """

    passed: int = 0
    failed: int = 0
    flaky: int = 0
    skipped: int = 0
    unseen: int = 0

    @property
    def total(self) -> int:
        """Return the number of all but the skipped ones."""
        return self.passed + self.failed + self.unseen


@dataclasses.dataclass(frozen=True, kw_only=True)
class Summary:
    """What is known of a run without a look at its tests."""

    id: str
    bundle: pathlib.Path
    size: int
    profile: str
    started: float
    elapsed: float
    status: Status
    exit_code: int | None
    counts: Counts
    nextest_version: str
    cli_args: tuple[str, ...]
    # The id of the run of which this one ran again what hadn't passed, None where it ran all.
    parent: str | None = None


@dataclasses.dataclass(frozen=True, kw_only=True)
class Run(Summary):
    """A run as it was recorded. Tests stand as they started or were skipped, one by one."""

    # The instants of the first and the last event.
    extent: Slice = (0, 0)
    tests: tuple[Test, ...] = ()
    scripts: tuple[Script, ...] = ()
    # The stretches of time in which the run stood still.
    pauses: tuple[Slice, ...] = ()
    cancellations: tuple[Cancellation, ...] = ()
    # The tests that the run names and never started, and how many more have no name.
    never_started: tuple[TestName, ...] = ()
    unnamed: int = 0

    @property
    def cancelled_for(self) -> str | None:
        """Return why the run was cancelled at last, None where it wasn't."""
        return self.cancellations[-1].reason if self.cancellations else None
