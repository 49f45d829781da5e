"""Shows a run while it goes on: how many tests ended, which failed, and what runs longest."""

from __future__ import annotations

import sys
import time
from collections.abc import Callable, Iterable
from typing import TextIO

from rezovamy_runs import formatting, terminal
from rezovamy_runs.streams.reader import Reader
from rezovamy_runs.streams.test_runs import TestRun

# How often the line of a terminal is drawn anew, and how often a line comes where there is none.
ON_TERMINAL, ELSEWHERE = 0.2, 10


class ProgressLine:
    """A line on standard error that says how far a run is, above which other lines are printed."""

    def __init__(
        self, stream: TextIO | None = None, clock: Callable[[], float] = time.monotonic
    ) -> None:
        self.stream: TextIO | None = sys.stderr if stream is None else stream
        self.is_terminal = terminal.is_terminal(self.stream)
        self.paint = terminal.Paint(terminal.colours(self.stream))
        self._clock = clock
        self._is_drawn = False
        self._drawn_at = clock()

    def print_line(self, line: str) -> None:
        """Print a line, after which the line of progress comes again."""
        self.print_lines([formatting.harmless(line)])

    def print_lines(self, lines: Iterable[str]) -> None:
        """Print lines whose texts are without harm already, and may have colours."""
        self._write(terminal.fitted("".join(f"{line}\n" for line in lines), self.stream))

    def _write(self, text: str) -> None:
        """Print a text in place of the line of progress.

        A stream that is closed or full takes nothing.
        """
        erase = "\r\x1b[K" if self._is_drawn else ""
        self._is_drawn = False
        try:
            if self.stream is not None:
                self.stream.write(erase + text)
                self.stream.flush()
        except (OSError, ValueError):
            self.stream = None

    def is_due(self) -> bool:
        """Tell whether the line was drawn long enough ago, and is to be drawn again."""
        if self._clock() - self._drawn_at < (ON_TERMINAL if self.is_terminal else ELSEWHERE):
            return False
        self._drawn_at = self._clock()
        return True

    def fits(self, line: str) -> bool:
        """Tell whether the line isn't cut where it is shown."""
        if not self.is_terminal or self.stream is None:
            return True
        return terminal.columns(line) < terminal.width_of(self.stream)

    def draw(self, line: str) -> None:
        """Show the line, on a terminal in place of the one before."""
        if self.is_terminal and self.stream is not None:
            self._write(terminal.cut(line, terminal.width_of(self.stream)))
            self._is_drawn = True
        else:
            self._write(line + "\n")

    def erase(self) -> None:
        """Take the line away."""
        self._write("")


class Progress(ProgressLine):
    """Prints on standard error how far a run is; the reader comes once it is there."""

    def __init__(
        self, stream: TextIO | None = None, clock: Callable[[], float] = time.monotonic
    ) -> None:
        super().__init__(stream, clock)
        self.reader: Reader | None = None
        self._reported: set[TestRun] = set()

    def refresh(self) -> None:
        """Print what is new, if the last time was long enough ago."""
        if self.is_due():
            self._report_failures()
            if self.reader is not None and self.reader.run.first_event is not None:
                self.draw(progress_line(self.reader))

    def _report_failures(self) -> None:
        """Name the tests that have failed since the last time."""
        for test in self.reader.run.timeline.tests if self.reader else []:
            if test not in self._reported and test.has_failed():
                self._reported.add(test)
                taken = formatting.duration(test.last.taken / 1e9)
                name = f"{formatting.name(test.binary_id)} {formatting.name(test.name)}"
                self.print_lines([f"{self.paint('red', 'FAIL')} [{taken}] {name}"])

    def finish(self) -> None:
        """Print what is left to say, and take the line of progress away."""
        self._report_failures()
        self.erase()


def progress_line(reader: Reader) -> str:
    """Return a line of how far the run is."""
    run, tests = reader.run, reader.run.timeline.tests
    # Of a binary after which another one was announced no test seems to run any more.
    ended = set(reader.sequence.unconfirmed_tests())
    running = [test for test in tests if test.is_running() and test not in ended]
    failed = sum(test.has_failed() for test in tests)
    known = len(tests) + sum(binary.unseen() for binary in run.binaries)
    line = counted(len(tests) - len(running), known, failed)
    if not running:
        return line
    longest = min(running, key=lambda test: test.last.start)
    ran = max(0, run.timeline.clock.current() - longest.last.start.time)
    return line + longest_of(longest.name, ran, len(running) - 1)


def counted(ended: int, known: int, failed: int) -> str:
    """Return how many of the known tests ended and failed."""
    return f"{ended} of {formatting.count(known, 'test')} ended, {failed} failed"


def longest_of(name: str, ran: int, others: int) -> str:
    """Return which test has run longest, for so many nanoseconds, and how many run beside it."""
    beside = f", and {others} more" if others else ""
    return f"; running: {formatting.name(name)} {formatting.duration(ran / 1e9)}{beside}"
