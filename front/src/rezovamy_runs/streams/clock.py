"""The instants of a run, in nanoseconds."""

from __future__ import annotations

import dataclasses
import time
from collections.abc import Callable

from rezovamy_runs.streams.messages import SECOND

WARNED_AFTER = 60 * SECOND

Source = Callable[[], int]


@dataclasses.dataclass
class Clock:
    """Tells the instant at which the last line came.

    Without a source, it is one that follows from how long tests took.
    """

    source: Source | None
    now: int

    def tick(self) -> None:
        """Take the instant of the next line."""
        self.now = self.source() if self.source else self.now

    def current(self) -> int:
        """Return the instant of this moment, as far as the clock knows it."""
        return self.source() if self.source else self.now

    def start_of(self, taken: int | None) -> int:
        """Return when a test started that ends now, and took so long."""
        return self.now - taken if self.source and taken else self.now

    def end_of(self, start: int, taken: int | None) -> int:
        """Return when a test ends that started then, and took so long."""
        end = self.now if self.source else start + (taken or 0)
        self.now = max(self.now, end)
        return end

    def warning_of(self, start: int, taken: int | None) -> int:
        """Return when a test is called slow that started then."""
        return self.now if self.source else start + (WARNED_AFTER if taken is None else taken)


def arrival_times() -> Source:
    """Return a source that begins with the time of day, and never goes back."""
    begin, base = time.monotonic_ns(), time.time_ns()
    return lambda: base + time.monotonic_ns() - begin


def arrival_clock() -> Clock:
    """Return a clock of the instants at which lines come."""
    return Clock(arrival_times(), 0)


def measured_clock(start: int) -> Clock:
    """Return a clock that begins at so many seconds, and goes by what tests took."""
    return Clock(None, start * SECOND)
