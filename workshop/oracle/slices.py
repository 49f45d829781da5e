"""The slices of attempts and setup scripts, cut by pauses, as a trace draws them.

docs/FORMATS.md says how under Trace. Instants are whole microseconds since 1970-01-01 UTC, rounded
down as in a trace.
"""

from __future__ import annotations

import dataclasses
from collections.abc import Iterable

from rezovamy_runs.model import TestName
from workshop.oracle.events import (
    AttemptFailed,
    Event,
    RunCancelled,
    RunContinued,
    RunPaused,
    ScriptFinished,
    ScriptStarted,
    TestFinished,
    TestRetried,
    TestSlow,
    TestStarted,
    microseconds,
)

Slice = tuple[int, int]


@dataclasses.dataclass
class Span:
    """An attempt of a test or the run of a setup script, from its start to its end."""

    slot: int
    number: int = 1
    # A begin and an end each.
    slices: list[Slice] = dataclasses.field(default_factory=list)
    slow: list[int] = dataclasses.field(default_factory=list)
    # The begin of the slice that is open; in a pause none is.
    begin: int | None = None

    def open(self, now: int, is_paused: bool) -> None:
        """Begin the first slice; in a pause it has no length."""
        if is_paused:
            self.slices.append((now, now))
        else:
            self.begin = now

    def cut(self, now: int) -> None:
        """End the slice that is open, if one is."""
        if self.begin is not None:
            self.slices.append((self.begin, now))
            self.begin = None

    def close(self, now: int, is_paused: bool) -> None:
        """End the last slice; in a pause it has no length."""
        if is_paused:
            self.begin = now
        self.cut(now)


@dataclasses.dataclass(frozen=True)
class Drawing:
    """What a run looks like: when its attempts and its setup scripts ran."""

    begin: int
    end: int
    # The spans of each time that a test ran, which are several in a stress run.
    tests: dict[TestName, list[list[Span]]]
    scripts: list[Span]
    pauses: list[Slice]
    cancellations: list[tuple[int, str]]


class DrawingBuilder:
    """Takes the events of a log one by one, and keeps the slices of each test and setup script."""

    def __init__(self) -> None:
        self._begin: int | None = None
        self._now = 0
        self._tests: dict[TestName, list[list[Span]]] = {}
        self._scripts: list[Span] = []
        self._pauses: list[Slice] = []
        self._paused_at: int | None = None
        self._cancellations: list[tuple[int, str]] = []
        # The spans that run, by the names of their tests or the indices of their scripts.
        self._open: dict[TestName | int, Span] = {}
        # The spans of tests that haven't finished, of which an attempt may run or not.
        self._unfinished: dict[TestName, list[Span]] = {}

    def take(self, event: Event) -> None:
        """Take the next event."""
        self._now = microseconds(event.at)
        if self._begin is None:
            self._begin = self._now
        match event:
            case TestStarted() | TestRetried():
                self._start_attempt(event)
            case TestFinished():
                self._stop(event.test, event.ends[-1].number)
                self._unfinished.pop(event.test, None)
            case AttemptFailed():
                self._stop(event.test, event.end.number)
            case TestSlow():
                if event.test in self._open:
                    self._open[event.test].slow.append(self._now)
            case ScriptStarted():
                self._scripts.append(self._start(event.index, Span(event.index)))
            case ScriptFinished():
                self._stop(event.index)
            case RunCancelled():
                self._cancellations.append((self._now, event.reason))
            case RunPaused():
                self._pause()
            case RunContinued():
                self._go_on()

    def _start_attempt(self, event: TestStarted | TestRetried) -> None:
        """Take the start of an attempt: a further one of a test that runs, or the first one."""
        spans = self._unfinished.get(event.test)
        if isinstance(event, TestRetried) and spans is not None:
            span = Span(event.slot, event.number)
        else:
            span, spans = Span(event.slot), []
            self._unfinished[event.test] = spans
            self._tests.setdefault(event.test, []).append(spans)
        spans.append(self._start(event.test, span))

    def _start(self, key: TestName | int, span: Span) -> Span:
        """Open a span."""
        span.open(self._now, self._paused_at is not None)
        self._open[key] = span
        return span

    def _stop(self, key: TestName | int, number: int = 1) -> None:
        """Close a span, whose number is known by now."""
        span = self._open.pop(key, None)
        if span is not None:
            span.close(self._now, self._paused_at is not None)
            span.number = number

    def _pause(self) -> None:
        """Cut what runs."""
        if self._paused_at is None:
            self._paused_at = self._now
            for span in self._open.values():
                span.cut(self._now)

    def _go_on(self) -> None:
        """Let what runs go on."""
        if self._paused_at is not None:
            self._pauses.append((self._paused_at, self._now))
            self._paused_at = None
            for span in self._open.values():
                span.begin = self._now

    def drawing(self) -> Drawing:
        """Return what was drawn.

        What is still open, which a trace leaves without an end, ends with the last event.
        """
        for span in self._open.values():
            span.cut(self._now)
        pauses = [*self._pauses]
        if self._paused_at is not None:
            pauses.append((self._paused_at, self._now))
        return Drawing(
            self._begin or 0, self._now, self._tests, self._scripts, pauses, self._cancellations
        )


def draw(events: Iterable[Event]) -> Drawing:
    """Return the slices of a log's events."""
    builder = DrawingBuilder()
    for event in events:
        builder.take(event)
    return builder.drawing()
