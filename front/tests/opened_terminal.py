"""A shell in a terminal, as somebody uses it who types."""

from __future__ import annotations

import contextlib
import fcntl
import os
import pathlib
import struct
import subprocess
import termios
import threading
from collections.abc import Iterator

from tests.stopped_runs import wait_until

STOP, INTERRUPT = "\x1a", "\x03"
SHELL = ("setsid", "--ctty", "--wait", "bash", "--norc", "--noprofile", "-i")


class Terminal:
    """What is typed into a terminal, and what was printed there."""

    def __init__(self, descriptor: int) -> None:
        self._descriptor = descriptor
        self.printed = b""
        self._reader = threading.Thread(target=self._read)
        self._reader.start()

    def _read(self) -> None:
        """Keep what is printed, until no process has the terminal."""
        with contextlib.suppress(OSError):
            while data := os.read(self._descriptor, 1 << 16):
                self.printed += data

    def type(self, text: str) -> None:
        """Type a text."""
        os.write(self._descriptor, text.encode())

    def wait_for(self, text: str) -> None:
        """Wait until a text was printed."""
        wait_until(lambda: text.encode() in self.printed)

    def finish(self) -> None:
        """Wait for the rest of what is printed."""
        self._reader.join()
        os.close(self._descriptor)


@contextlib.contextmanager
def opened(
    folder: pathlib.Path, environment: dict[str, str], columns: int = 100
) -> Iterator[Terminal]:
    """Open a terminal of so many columns, in which a shell waits."""
    outer, inner = os.openpty()
    fcntl.ioctl(inner, termios.TIOCSWINSZ, struct.pack("HHHH", 40, columns, 0, 0))
    own = {**environment, "TERM": "xterm", "PS1": "ready> "}
    shell = subprocess.Popen(SHELL, stdin=inner, stdout=inner, stderr=inner, cwd=folder, env=own)
    os.close(inner)
    terminal = Terminal(outer)
    try:
        terminal.wait_for("ready> ")
        yield terminal
        terminal.type("exit\n")
        shell.wait()
    finally:
        shell.kill()
        shell.wait()
        terminal.finish()
