"""Reads an event of libtest whose output is too long to be held."""

from __future__ import annotations

import json
import re

from rezovamy_runs.processes.output import Capture
from rezovamy_runs.streams.messages import TestEvent, parse
from rezovamy_runs.streams.texts import to_bytes

# After this the output comes, to the next quotation mark that isn't escaped. A name can't hold it.
OUTPUT = b'"stdout": "'
# Whole characters and whole escapes. libtest escapes nothing as a pair of surrogates.
WHOLE = re.compile(rb'[^"\\]*(?:\\(?:u[0-9a-fA-F]{4}|[^u])[^"\\]*)*')
LONGEST_ESCAPE = len(rb"\u0000")


class LongEvent:
    """An event that is read in parts, of whose output the first and the last bytes are kept.

    `line` has the same of its bytes as they came.
    """

    def __init__(self, head: bytes, limit: int) -> None:
        """Read the start of a line, up to where its output begins."""
        self.output, self.line = Capture(limit), Capture(limit)
        self._rest = bytearray(head)
        self._open = b""
        self._is_inside = True
        self._is_broken = False
        self.line.feed(head)

    def feed(self, data: bytes) -> None:
        """Read the next bytes of the line."""
        self.line.feed(data)
        if self._is_broken:
            return
        if self._is_inside:
            data = self._read_output(self._open + data)
        if not self._is_inside:
            self._rest += data

    def _read_output(self, data: bytes) -> bytes:
        """Read the output as far as it has come, and return what follows it."""
        found = WHOLE.match(data)
        end = found.end() if found else 0
        try:
            text = json.loads(f'"{data[:end].decode("utf-8", "surrogateescape")}"')
        except ValueError:
            self._is_broken = True
            return b""
        self.output.feed(to_bytes(text))
        self._open = data[end:]
        self._is_inside = not self._open.startswith(b'"')
        self._is_broken = self._is_inside and len(self._open) >= LONGEST_ESCAPE
        return self._open

    def event(self) -> TestEvent | None:
        """Return the event, with an empty output, once its line has ended; None if it isn't one."""
        if self._is_inside or self._is_broken:
            return None
        found = parse(self._rest.decode("utf-8", "surrogateescape"))
        return found if isinstance(found, TestEvent) else None
