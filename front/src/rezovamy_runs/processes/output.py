"""Keeps the first and the last bytes of an output."""

from __future__ import annotations

from rezovamy_runs.cut_outputs import LAST
from rezovamy_runs.processes.jobs import Captured


class Capture:
    """Keeps the first bytes of an output, up to a limit, and some last bytes."""

    def __init__(self, limit: int) -> None:
        self._limit = limit
        self._first = bytearray()
        self._last = b""
        self._length = 0

    def feed(self, data: bytes) -> None:
        """Add the next bytes."""
        self._length += len(data)
        room = self._limit - len(self._first)
        if room >= len(data):
            self._first += data
            return
        self._first += data[:room]
        rest = data[room:]
        self._last = (rest if len(rest) >= LAST else self._last + rest)[-LAST:]

    def add(self, other: Captured) -> None:
        """Add what was kept of another output, which has the same limit."""
        self.feed(other.first)
        self._length += other.left_out
        self.feed(other.last)

    def captured(self, prefix: bytes = b"") -> Captured:
        """Return what was kept, without a prefix if it begins with it."""
        cut = len(prefix) if self._first.startswith(prefix) else 0
        return Captured(bytes(self._first[cut:]), self._last, self._length - cut)
