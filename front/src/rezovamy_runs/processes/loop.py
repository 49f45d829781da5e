"""Waits for pipes, processes and signals in one thread."""

from __future__ import annotations

import contextlib
import os
import select
import signal
from collections.abc import Callable
from types import FrameType
from typing import Self

from rezovamy_runs.processes.guard import caught_signals
from rezovamy_runs.streams.clock import Source, arrival_times
from rezovamy_runs.streams.messages import SECOND

MOST_SIGNALS = 256


def _note(_number: int, _frame: FrameType | None) -> None:
    """Do nothing: the number of the signal is in the loop's pipe."""


class Loop:
    """Calls what waits for a descriptor once it can be read.

    Between enter and exit, the signals that ask the front end to end or to pause are noted, and
    `turn` returns them. One that `turn` hasn't returned at the exit is sent again after it.
    """

    def __init__(self) -> None:
        self.now: Source = arrival_times()
        self._waiting: dict[int, Callable[[], object]] = {}
        self._signals: list[int] = []
        self._undo = contextlib.ExitStack()

    def __enter__(self) -> Self:
        """Note signals from now on."""
        self._epoll = self._undo.enter_context(select.epoll())
        reading, writing = os.pipe2(os.O_NONBLOCK | os.O_CLOEXEC)
        self._undo.callback(os.close, writing)
        self._undo.callback(self._close_all)
        before = signal.set_wakeup_fd(writing, warn_on_full_buffer=False)
        self._undo.callback(signal.set_wakeup_fd, before)
        for number in caught_signals():
            self._undo.callback(signal.signal, number, signal.signal(number, _note))
        self._signal_pipe = reading
        self.add(reading, self._read_signals)
        return self

    def _read_signals(self) -> None:
        """Read the signals that were noted."""
        with contextlib.suppress(BlockingIOError):
            self._signals.extend(os.read(self._signal_pipe, MOST_SIGNALS))

    def has_noted(self, number: int) -> bool:
        """Tell whether a signal has come that `turn` will return."""
        self._read_signals()
        return number in self._signals

    def __exit__(self, *_: object) -> None:
        """Close all descriptors, and restore the handlers of signals."""
        self._read_signals()
        self._undo.close()
        for number in self._signals:
            signal.raise_signal(number)

    def _close_all(self) -> None:
        """Close the descriptors that are still waited for."""
        for descriptor in list(self._waiting):
            self.close(descriptor)

    def add(self, descriptor: int, call: Callable[[], object], what: int = select.EPOLLIN) -> None:
        """Call this whenever the descriptor can be read (or written to), or is at its end."""
        self._epoll.register(descriptor, what)
        self._waiting[descriptor] = call

    def leave(self, descriptor: int) -> None:
        """Wait for a descriptor no more, which stays open."""
        if self._waiting.pop(descriptor, None):
            self._epoll.unregister(descriptor)

    def close(self, descriptor: int) -> None:
        """Close a descriptor, and wait for it no more.

        It must leave epoll first: as long as another process has a copy of it, closing it here
        doesn't remove it.
        """
        self._epoll.unregister(descriptor)
        del self._waiting[descriptor]
        os.close(descriptor)

    def turn(self, until: int) -> list[int]:
        """Wait for something to happen until an instant, and return the signals that came."""
        # epoll takes milliseconds, and rounds up.
        for descriptor, _ in self._epoll.poll(max(0, until - self.now()) / SECOND):
            call = self._waiting.get(descriptor)
            if call:
                call()
        signals, self._signals = self._signals, []
        return signals
