"""The lines of a stream as they come, up to its end or to a signal that asks the tool to end."""

from __future__ import annotations

import os
import select
import signal
import time
from collections.abc import Callable, Iterator
from types import FrameType

from rezovamy_runs.streams.run_state import CancelReason

REASONS: dict[int, CancelReason] = {
    signal.SIGINT: "interrupt",
    signal.SIGTERM: "signal",
    signal.SIGHUP: "signal",
}
LONGEST_WAIT = 1


def do_nothing() -> None:
    """Do nothing."""


class LineStream:
    """The lines of a descriptor.

    After a signal, `cancel_reason` says which, and what is on its way is still read. Where a pause
    is given, `idle` is called each time that so many seconds went by without a line. Once a
    `deadline` is set, nothing is read after it.
    """

    def __init__(
        self,
        descriptor: int,
        pause: float | None = None,
        idle: Callable[[], None] = do_nothing,
    ) -> None:
        self.descriptor, self.pause, self.idle = descriptor, pause, idle
        self.cancel_reason: CancelReason | None = None
        self.deadline: float | None = None
        self._wake_reader, self._wake_writer = os.pipe()
        for number in REASONS:
            # As a hang-up by `nohup`, each may be ignored.
            if signal.getsignal(number) is not signal.SIG_IGN:
                signal.signal(number, self.stop)

    def stop(self, number: int, _frame: FrameType | None) -> None:
        """Take a signal."""
        self.cancel_reason = REASONS[number]
        self.deadline = time.monotonic() + LONGEST_WAIT
        os.write(self._wake_writer, b".")

    def __iter__(self) -> Iterator[bytes]:
        """Return the lines."""
        parts: list[bytes] = []
        while self.is_readable():
            chunk = os.read(self.descriptor, 1 << 16)
            if not chunk:
                break
            *lines, last = chunk.split(b"\n")
            for line in lines:
                yield b"".join([*parts, line, b"\n"])
                parts = []
            parts.append(last)
        if any(parts):
            yield b"".join(parts)

    def is_readable(self) -> bool:
        """Wait for what comes, and once there is a deadline no longer than that."""
        watched = [self.descriptor, self._wake_reader]
        while self.deadline is None and not select.select(watched, [], [], self.pause)[0]:
            self.idle()
        if self.deadline is None:
            return True
        wait = max(0, self.deadline - time.monotonic())
        return bool(wait and select.select([self.descriptor], [], [], wait)[0])
