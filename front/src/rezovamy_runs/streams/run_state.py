"""The state of a run while its lines are read."""

from __future__ import annotations

import dataclasses
from collections.abc import Callable
from typing import Literal

from rezovamy_runs.streams.targets import Target, Targets
from rezovamy_runs.streams.test_runs import (
    FAILED,
    PASSED,
    BinaryRun,
    Ending,
    Mark,
    TestRun,
)
from rezovamy_runs.streams.texts import printable
from rezovamy_runs.streams.timeline import Timeline

CancelReason = Literal["interrupt", "signal"]


@dataclasses.dataclass(frozen=True)
class Console:
    """Where texts of a run and warnings go, these after the name of the program that reads it."""

    write: Callable[[str], None]
    program: str

    def warn(self, what: str) -> None:
        """Print a warning."""
        self.write(f"{self.program}: {what}")


@dataclasses.dataclass
class BuildLog:
    """What cargo prints of a build that fails, and what stands outside of any binary."""

    is_failing: bool = False
    text: list[str] = dataclasses.field(default_factory=list)
    errors: list[tuple[Mark, str]] = dataclasses.field(default_factory=list)
    other_text: list[str] = dataclasses.field(default_factory=list)


@dataclasses.dataclass
class RunState:
    """What the lines of a run have told so far.

    It is a run of `nextest` once a line says so. `has_announcements` tells that cargo says which
    binary runs, `is_cut` that the last line is the begin of an event, and `is_printed` that
    something of the line was printed. `first_event` is the instant at which the first binary began.
    """

    timeline: Timeline
    targets: Targets
    console: Console
    binaries: list[BinaryRun] = dataclasses.field(default_factory=list)
    build: BuildLog = dataclasses.field(default_factory=BuildLog)
    never_ran: list[Target] = dataclasses.field(default_factory=list)
    first_event: int | None = None
    cancel_reason: CancelReason | None = None
    is_nextest: bool = False
    has_announcements: bool = False
    is_cut: bool = False
    is_printed: bool = False
    text_lines: int = 0

    @property
    def last_binary(self) -> BinaryRun | None:
        """The binary that began last."""
        return self.binaries[-1] if self.binaries else None

    def running(self) -> list[TestRun]:
        """Return the tests that run in the last binary."""
        return self.binaries[-1].running() if self.binaries else []

    def is_idle(self) -> bool:
        """Return whether no test runs, or cargo has said that its binary failed."""
        return not self.running() or bool(self.binaries[-1].failed_at)

    def is_libtest(self) -> bool:
        """Return whether the stream is that of libtest.

        A line of `nextest` in it is one that a test prints then.
        """
        return not self.is_nextest and (self.has_announcements or bool(self.timeline.tests))

    def has_failures(self) -> bool:
        """Return whether a test has failed."""
        return any(test.has_failed() for test in self.timeline.tests)

    def silent_ending(self) -> Ending:
        """Return how a process ended of which cargo says nothing."""
        return PASSED if self.has_announcements else FAILED

    def add_binary(self, target: Target | None) -> BinaryRun:
        """Begin a binary."""
        binary_id = target.id if target else None
        number = len(self.binaries) + 1
        binary = BinaryRun(number, self.timeline.now(), target, binary_id)
        self.binaries.append(binary)
        if self.first_event is None:
            self.first_event = self.timeline.clock.now
        self.build.is_failing = False
        return binary

    def warn(self, what: str) -> None:
        """Print a warning of the line."""
        self.console.warn(f"line {self.timeline.line}: {what}")

    def print_text(self, text: str) -> None:
        """Print a line that is no event."""
        self.is_printed = True
        if text.strip():
            self.text_lines += 1
            self.console.write(printable(text.rstrip("\r\n")))

    def keep_text(self, text: str) -> None:
        """Keep a text that is no event: of the binary that runs, or of what else prints."""
        last = self.last_binary
        if text:
            kept = last.text if last and not last.failed_at else self.build.other_text
            kept.append(text)

    def keep_before_event(self, text: str) -> None:
        """Keep and print a text that has left its line open, so that an event stands after it."""
        self.keep_text(text)
        if text.strip():
            self.console.write(printable(text))
