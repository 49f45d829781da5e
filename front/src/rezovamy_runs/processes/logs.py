"""Holds the log file that libtest writes."""

from __future__ import annotations

import os


class Log:
    """A file in memory. It is on no disk, and the process that writes it doesn't inherit it."""

    def __init__(self) -> None:
        self._descriptor = os.memfd_create("log")
        self._read = 0

    @property
    def path(self) -> str:
        """Return the path by which a process of the same user opens the file."""
        return f"/proc/{os.getpid()}/fd/{self._descriptor}"

    def read(self) -> bytes:
        """Return what was written since the last time."""
        size = os.fstat(self._descriptor).st_size
        content = os.pread(self._descriptor, size - self._read, self._read)
        self._read += len(content)
        return content

    def read_and_close(self) -> bytes:
        """Return what was written since the last time, and close the file."""
        content = self.read()
        os.close(self._descriptor)
        return content
