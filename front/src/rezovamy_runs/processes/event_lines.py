"""Reads what a process with several tests writes: libtest's events, and its log file."""

from __future__ import annotations

import re
from collections.abc import Iterable
from typing import NamedTuple

from rezovamy_runs.processes.jobs import Captured, Verdict
from rezovamy_runs.processes.long_event import OUTPUT, LongEvent
from rezovamy_runs.processes.output import Capture
from rezovamy_runs.streams.messages import SuiteEnd, SuiteStart, TestEvent, parse
from rezovamy_runs.streams.texts import to_bytes

EVENT = b'{ "type": "'
# How much of a line without an event is kept until its end is known.
MOST_TEXT = 1 << 16
RESULT = re.compile(rb"(ok|failed|ignored)(?:: .*)? ([^ ]+)(?: <[\d.]+s>)?\n", re.S)
STARTS = (b"ok ", b"failed ", b"failed: ", b"ignored ", b"ignored: ", b"ignored, ")
VERDICTS = {b"ok": Verdict.PASSED, b"failed": Verdict.FAILED}


class EventLine(NamedTuple):
    """An event of a test, what the test printed, and the line that says both."""

    event: TestEvent
    output: Captured
    line: Captured


class EventLines:
    """Splits an output into the events of tests, and text."""

    def __init__(self, limit: int) -> None:
        self._limit = limit
        self.text = Capture(limit)
        self._open = bytearray()
        self._long: LongEvent | None = None
        self._events: list[EventLine] = []

    def feed(self, data: bytes) -> None:
        """Read the next bytes."""
        begin = 0
        while (end := data.find(b"\n", begin)) >= 0:
            self._read_part(data[begin : end + 1])
            self._end_line()
            begin = end + 1
        self._read_part(data[begin:])
        if not self._long and len(self._open) > MOST_TEXT:
            self._shorten()

    def _read_part(self, data: bytes) -> None:
        """Read bytes that have no end of line, but for the last one."""
        if self._long:
            self._long.feed(data)
        else:
            self._open += data

    def _shorten(self) -> None:
        """Hold no more of a long line than is needed: of text nothing, of an event no output."""
        place = self._open.rfind(EVENT)
        if place < 0:
            self.text.feed(bytes(self._open[: -len(EVENT)]))
            del self._open[: -len(EVENT)]
            return
        output = self._open.find(OUTPUT, place)
        if output < 0:
            return
        begin = output + len(OUTPUT)
        self.text.feed(bytes(self._open[:place]))
        self._long = LongEvent(bytes(self._open[place:begin]), self._limit)
        self._long.feed(bytes(self._open[begin:]))
        self._open.clear()

    def events(self) -> list[EventLine]:
        """Return the events that have come since the last time."""
        found, self._events = self._events, []
        return found

    def finish(self) -> None:
        """Take the end of the output."""
        if self._long:
            self.text.add(self._long.line.captured())
            self._long = None
        self.text.feed(bytes(self._open))
        self._open.clear()

    def _end_line(self) -> None:
        """Read the line that has come to its end."""
        if self._long:
            found, self._long = self._long, None
            line, event = found.line.captured(), found.event()
            if event:
                self._events.append(EventLine(event, found.output.captured(), line))
            else:
                self.text.add(line)
            return
        self._read_line()

    def _read_line(self) -> None:
        """Read a line. An event stands at its end, perhaps after text without an end of line."""
        line = bytes(self._open)
        self._open.clear()
        place = line.rfind(EVENT)
        found = None if place < 0 else parse(line[place:].decode("utf-8", "surrogateescape"))
        if isinstance(found, TestEvent):
            output = kept(to_bytes(found.output or ""), self._limit)
            self._events.append(EventLine(found, output, kept(line[place:], self._limit)))
        if isinstance(found, TestEvent | SuiteStart | SuiteEnd):
            line = line[:place]
        self.text.feed(line)


def kept(data: bytes, limit: int) -> Captured:
    """Return what is kept of an output that came as a whole."""
    capture = Capture(limit)
    capture.feed(data)
    return capture.captured()


class LogLines:
    """Reads the log file of libtest, which has a result for each test that ended."""

    def __init__(self, names: Iterable[str]) -> None:
        self._names = {name.encode("utf-8", "surrogateescape"): name for name in names}
        self._said: dict[str, Verdict] = {}
        self._open = b""

    def feed(self, data: bytes) -> None:
        """Read the next bytes. A result has more than one line if its reason has."""
        for line in data.splitlines(keepends=True):
            self._open = line if line.startswith(STARTS) else self._open + line
            found = RESULT.fullmatch(self._open)
            if found and found[1] in VERDICTS and found[2] in self._names:
                self._said[self._names[found[2]]] = VERDICTS[found[1]]

    def result_of(self, name: str) -> Verdict | None:
        """Return how a test ended; None if the file doesn't say."""
        return self._said.get(name)
