"""Starts a process, and reads what it prints."""

from __future__ import annotations

import contextlib
import fcntl
import os
import signal
from collections.abc import Callable, Mapping

from rezovamy_runs.processes.jobs import Exit, Program
from rezovamy_runs.processes.loop import Loop

# How many bytes a pipe holds, if the system lets it, and how many are read at once.
PIPE_SIZE = 1 << 20
# Signals that Python ignores, which a program would inherit. The front end ignores another one,
# which a program that writes to its terminal needs to ignore too.
RESET = (signal.SIGPIPE, signal.SIGXFSZ)
RESET_WITH_OUTPUTS = (*RESET, signal.SIGTTOU)
STANDARD_OUTPUT, STANDARD_ERROR = 1, 2

Consumer = Callable[[bytes], None]


def spawn(program: Program, writing: dict[int, int]) -> int:
    """Start a program in a group of its own, with empty standard input, and return its id.

    `writing` maps its standard streams to descriptors of this process. It inherits the others.
    """
    origin = os.open(".", os.O_PATH | os.O_DIRECTORY)
    try:
        # Python 3.11 can't tell the new process its directory in another way.
        os.chdir(program.directory)
        return os.posix_spawnp(
            program.words[0],
            program.words,
            program.environment,
            file_actions=[
                (os.POSIX_SPAWN_OPEN, 0, os.devnull, os.O_RDONLY, 0),
                *((os.POSIX_SPAWN_DUP2, held, wanted) for wanted, held in writing.items()),
            ],
            setpgroup=0,
            setsigmask=[],
            setsigdef=RESET_WITH_OUTPUTS if STANDARD_ERROR in writing else RESET,
        )
    finally:
        os.fchdir(origin)
        os.close(origin)


class Child:
    """A process that runs in a group of its own.

    `consumers` are called with what it writes to standard output (1) and standard error (2).
    `exit` is None while it runs, and `ended` is the instant at which it ended.
    """

    def __init__(self, loop: Loop, program: Program, consumers: Mapping[int, Consumer]) -> None:
        self._loop = loop
        self._open: dict[int, Consumer] = {}
        self.exit: Exit | None = None
        self.ended: int | None = None
        writing: dict[int, int] = {}
        try:
            for stream, consumer in consumers.items():
                writing[stream] = self._pipe(consumer)
            self.pid = spawn(program, writing)
        except OSError:
            self.abandon()
            raise
        finally:
            for descriptor in writing.values():
                os.close(descriptor)
        self._watch_process()

    def _pipe(self, consumer: Consumer) -> int:
        """Open a pipe for an output, and return its end for the process."""
        reading, writing = os.pipe2(os.O_CLOEXEC)
        os.set_blocking(reading, False)
        # A user may have only so much memory in pipes.
        with contextlib.suppress(OSError):
            fcntl.fcntl(reading, fcntl.F_SETPIPE_SZ, PIPE_SIZE)
        self._open[reading] = consumer
        self._loop.add(reading, lambda: self._read(reading))
        return writing

    def _read(self, descriptor: int) -> int:
        """Read what there is of an output, and return how many bytes it was."""
        try:
            data = os.read(descriptor, PIPE_SIZE)
        except BlockingIOError:
            return 0
        if data:
            self._open[descriptor](data)
        else:
            self._close(descriptor)
        return len(data)

    def _close(self, descriptor: int) -> None:
        """Read no more of an output."""
        del self._open[descriptor]
        self._loop.close(descriptor)

    def _watch_process(self) -> None:
        """Wait for the process to end."""
        self._descriptor = os.pidfd_open(self.pid)
        self._loop.add(self._descriptor, self._end)

    def _end(self) -> None:
        """Keep how the process ended."""
        code = os.waitstatus_to_exitcode(os.waitpid(self.pid, 0)[1])
        self.exit = Exit(status=code) if code >= 0 else Exit(signal=-code)
        self.ended = self._loop.now()
        self._loop.close(self._descriptor)

    @property
    def is_open(self) -> bool:
        """Tell whether an output is still read."""
        return bool(self._open)

    def abandon(self) -> bool:
        """Read what is in the pipes, close them, and tell whether another process has one open.

        A pipe never holds more than its size, so all that came before the end is read.
        """
        for descriptor in list(self._open):
            left = PIPE_SIZE
            while left > 0 and (got := self._read(descriptor)):
                left -= got
        leaked = self.is_open
        self._close_outputs()
        return leaked

    def _close_outputs(self) -> None:
        for descriptor in list(self._open):
            self._close(descriptor)

    def forget(self) -> None:
        """Wait no more for a process that somebody else has killed, nor for its outputs."""
        self._close_outputs()
        if not self.exit:
            self._loop.close(self._descriptor)

    def send(self, number: int) -> None:
        """Send a signal to the processes of the group, as long as the first one runs."""
        if self.exit:
            return
        with contextlib.suppress(PermissionError):
            try:
                os.killpg(self.pid, number)
            except ProcessLookupError:
                # It went to another group.
                os.kill(self.pid, number)
