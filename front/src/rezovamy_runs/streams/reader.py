"""Reads the lines of a stream into runs of binaries, their suites and their tests."""

from __future__ import annotations

import dataclasses
import re

from rezovamy_runs.streams import event_times
from rezovamy_runs.streams import messages
from rezovamy_runs.streams import verdicts
from rezovamy_runs.streams.binary_sequence import BinarySequence
from rezovamy_runs.streams.cargo_reader import CargoReader
from rezovamy_runs.streams.clock import Clock
from rezovamy_runs.streams.event_reader import EventReader
from rezovamy_runs.streams.messages import (
    Artifact,
    CargoMessage,
    Report,
    SuiteEnd,
    SuiteStart,
    TestEvent,
)
from rezovamy_runs.streams.partial_events import PartialEvent, partial_event
from rezovamy_runs.streams.run_state import CancelReason, Console, RunState
from rezovamy_runs.streams.targets import Targets
from rezovamy_runs.streams.test_runs import FAILED, PASSED, BinaryRun, TestRun
from rezovamy_runs.streams.timeline import Timeline

VALUE = re.compile(r'\{\s*"(?:type|reason)"\s*:')
# An event ends its line, so that only the last begins of one in a line can be its own, or that of
# a value in it.
MOST_PLACES = 16


@dataclasses.dataclass(frozen=True)
class OpenEvent:
    """The end of a test of which not all lines have come."""

    event: PartialEvent
    binary: BinaryRun
    test: TestRun


class Reader:
    """Reads the lines of a stream. `run` is what they have told so far."""

    def __init__(self, clock: Clock, console: Console, targets: Targets) -> None:
        self.run = RunState(Timeline(clock), targets, console)
        self.sequence = BinarySequence(self.run)
        self._cargo = CargoReader(self.run, self.sequence)
        self._events = EventReader(self.run, self.sequence)
        self._open: OpenEvent | None = None

    def read(self, line: bytes) -> None:
        """Take the next line."""
        run = self.run
        run.timeline.advance()
        try:
            text = line.decode()
        except UnicodeDecodeError:
            text = line.decode("utf-8", "surrogateescape")
            run.warn("isn't UTF-8; its other bytes are told as \\xff")
        run.is_printed = False
        if self._read_event(text):
            self._give_up_open_event()
        elif not self._read_partial_event(text):
            run.keep_text(text)
            run.is_cut = VALUE.match(text.lstrip()) is not None and text[-1] not in "}\n"
            run.print_text(text)
        self.sequence.keep_line(text)

    def _read_event(self, text: str) -> bool:
        """Take a line that says something of the run, or whose end does; return whether it did.

        What stands before its end is text.
        """
        places = [match.start() for match in VALUE.finditer(text)][-MOST_PLACES:]
        if text.lstrip().startswith("{"):
            places = [0] + [place for place in places if text[:place].strip()]
        for place in places:
            if self._read_message(text[place:]):
                self.run.keep_before_event(text[:place])
                return True
        return self._cargo.read(text)

    def _read_message(self, text: str) -> bool:
        """Take a line of JSON; return whether it is believed."""
        message, last = messages.parse(text), self.run.last_binary
        match message:
            case SuiteStart():
                return self._events.start_suite(message)
            case SuiteEnd():
                return self._events.end_suite(message)
            case TestEvent():
                return self._events.read_test(message)
            case Artifact() | CargoMessage():
                return self._read_cargo_message(message)
            case Report():
                return last is not None and bool(last.suites)
        return False

    def _read_cargo_message(self, message: Artifact | CargoMessage) -> bool:
        """Take a line of cargo's. A target without libtest may print such a line too."""
        last = self.run.last_binary
        if not self.run.is_idle():
            return False
        if isinstance(message, Artifact):
            self.run.targets.add_artifact(message)
        return last is None or not last.can_print()

    def _read_partial_event(self, text: str) -> bool:
        """Take the begin of a test's end into which something was written, or what follows it."""
        open_event = self._open
        if open_event is None:
            return self._open_event(text)
        open_event.event.more.append(text)
        whole = open_event.event.event() if open_event.event.is_whole() else None
        if whole:
            self._open = None
            open_event.test.last.end = None
            self._events.read_test(whole)
        return True

    def _open_event(self, text: str) -> bool:
        """End a test by the begin of the line of its end; the output comes with the rest."""
        run, binary = self.run, self.run.last_binary
        partial = partial_event(text) if binary and binary.suite else None
        event = partial.event() if partial else None
        if binary is None or binary.suite is None or partial is None or event is None:
            return False
        test = binary.suite.by_name.get(event.name)
        if test is None or not test.is_running() or not self._events.read_test(event):
            return False
        what = "something else that was printed into it stands in its output"
        run.warn(f"the end of {test.name} isn't whole: {what}")
        run.keep_before_event(text.removesuffix(partial.text))
        self._open = None if partial.is_whole() else OpenEvent(partial, binary, test)
        run.is_cut = text[-1] != "\n"
        return True

    def _give_up_open_event(self) -> None:
        """Let what came after the begin of a test's end be text, where its rest never came."""
        open_event, self._open = self._open, None
        if open_event is None:
            return
        for text in open_event.event.more:
            open_event.binary.text.append(text)
            self.run.print_text(text)

    def end_cargo_run(self, status: int) -> None:
        """Take the end of a run of cargo with what it answered, after which another run comes.

        A test that ran there has ended.
        """
        run = self.run
        run.timeline.advance()
        self._give_up_open_event()
        self.sequence.confirm()
        if run.last_binary:
            silent = FAILED if status else PASSED
            verdicts.judge(run, run.last_binary, silent)
        run.never_ran += run.targets.never_ran()

    def finish(self, status: int | None = None, cancel_reason: CancelReason | None = None) -> None:
        """Take the end of the input with what cargo answered, if that is known.

        What is missing is printed.
        """
        run = self.run
        run.cancel_reason = cancel_reason
        run.timeline.advance()
        self._give_up_open_event()
        verdicts.note_signal(run, status)
        self.sequence.confirm()
        verdicts.finish(run, status)
        if not run.is_nextest:
            event_times.put_in_order(run.timeline.tests)
        for binary in run.binaries:
            self._warn_of_missing(binary)

    def _warn_of_missing(self, binary: BinaryRun) -> None:
        """Print which tests of a binary never ended, and how many never started."""
        running, unseen = binary.running(), binary.unseen()
        missing = []
        if running:
            first = f"the first is {running[0].name}"
            missing.append(f"tests that never ended: {len(running)}, {first}")
        if unseen:
            missing.append(f"announced tests that never started: {unseen}")
        if missing:
            self.run.console.warn(f"{binary.id}: {', '.join(missing)}")
