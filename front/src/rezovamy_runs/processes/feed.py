"""Feeds a process with data, and never waits for it."""

from __future__ import annotations

import collections
import contextlib
import fcntl
import os
import select
import subprocess

from rezovamy_runs.processes.child import PIPE_SIZE
from rezovamy_runs.processes.loop import Loop

# How much of what the process printed last is kept.
LONGEST_END = 100


class Feed:
    """The standard input of a process, which has pipes for all three streams.

    What the process hasn't read yet is held in memory. The loop watches it until `leave`.
    """

    def __init__(self, loop: Loop, process: subprocess.Popen[bytes]) -> None:
        assert process.stdin and process.stdout
        self._loop, self._process = loop, process
        self._input, self._output = process.stdin.fileno(), process.stdout.fileno()
        self._waiting = collections.deque[bytes]()
        self._is_open = True
        self.end_of_output = b""
        for descriptor in (self._input, self._output):
            os.set_blocking(descriptor, False)
            # A user may have only so much memory in pipes.
            with contextlib.suppress(OSError):
                fcntl.fcntl(descriptor, fcntl.F_SETPIPE_SZ, PIPE_SIZE)
        loop.add(self._output, self._read)

    def send(self, data: bytes) -> None:
        """Pass data on, once the process has read what came before."""
        if not self._is_open:
            return
        self._waiting.append(data)
        if len(self._waiting) == 1 and not self._has_sent_all():
            self._loop.add(self._input, self._go_on, select.EPOLLOUT)

    def _has_sent_all(self) -> bool:
        """Send as much as there is room for, and tell whether nothing is left."""
        try:
            while self._waiting:
                sent = os.write(self._input, self._waiting[0])
                self._waiting[0] = self._waiting[0][sent:]
                if not self._waiting[0]:
                    self._waiting.popleft()
        except BlockingIOError:
            return False
        except OSError:
            # It has ended.
            self._is_open = False
            self._waiting.clear()
        return True

    def _go_on(self) -> None:
        """Send more, now that there is room."""
        if self._has_sent_all():
            self._loop.leave(self._input)

    def _read(self) -> None:
        """Read what the process has printed."""
        with contextlib.suppress(BlockingIOError):
            data = os.read(self._output, PIPE_SIZE)
            self._keep(data)
            if not data:
                self._loop.leave(self._output)

    def _keep(self, printed: bytes) -> None:
        self.end_of_output = (self.end_of_output + printed)[-LONGEST_END:]

    def leave(self) -> None:
        """Let the loop watch it no more."""
        for descriptor in (self._input, self._output):
            self._loop.leave(descriptor)

    def finish(self) -> tuple[int, bytes]:
        """Send the rest, wait for the process, and return its status and its standard error."""
        printed, said = self._process.communicate(b"".join(self._waiting))
        self._keep(printed)
        return self._process.returncode, said
