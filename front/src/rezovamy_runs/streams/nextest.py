"""Reads the events of `cargo nextest`, which prints no test's own output as a line."""

from __future__ import annotations

import re

from rezovamy_runs.streams.binary_sequence import BinarySequence
from rezovamy_runs.streams.messages import NextestBinary, TestEvent
from rezovamy_runs.streams.run_state import RunState
from rezovamy_runs.streams.targets import target_of
from rezovamy_runs.streams.test_runs import BinaryRun, TestRun

NAME = re.compile(r"([\w-]+::[\w.-]+)\$(.+)", re.S)
RETRY = re.compile(r"(.+)#([2-9]|[1-9]\d{1,2})", re.S | re.A)


def prefix_of(binary: NextestBinary) -> str:
    """Return what stands before the names of a suite's tests."""
    return f"{binary.crate}::{binary.test_binary}"


def id_of(binary: NextestBinary) -> str:
    """Return the id of a suite's binary."""
    return target_of(binary.crate, binary.kind, binary.test_binary).id


class NextestReader:
    """Reads the events of tests that nextest names; a start that is missing is made."""

    def __init__(self, run: RunState, sequence: BinarySequence) -> None:
        self.run, self.sequence = run, sequence
        self.by_prefix: dict[str, BinaryRun] = {}

    def has_name(self, name: str) -> bool:
        """Return whether a name is one that nextest gives, in a stream that may be nextest's."""
        return NAME.fullmatch(name) is not None and not self.run.is_libtest()

    def name_binary(self, binary: BinaryRun, prefix: str, binary_id: str) -> None:
        """Give a binary its id; it may have run before."""
        if any(other.known_id == binary_id for other in self.run.binaries):
            self.run.warn(f"{binary_id} runs again; its tests are started anew")
        binary.known_id, binary.prefix = binary_id, prefix
        self.by_prefix[prefix] = binary
        self.run.is_nextest = True

    def read_test(self, event: TestEvent) -> None:
        """Take an event of a test."""
        timeline = self.run.timeline
        binary, name, number = self._place_of(event.name)
        test = timeline.latest.get((binary.id, name))
        if event.kind == "started":
            self._start(binary, name, number, test)
            return
        if test is None or not test.is_running() and not test.can_retry(number):
            if event.kind != "ignored":
                self.run.warn(f"{binary.id} {name} has no start; one is made")
            test = timeline.add_test(binary, name, timeline.clock.start_of(event.taken))
        timeline.apply(test, number, event)

    def _start(self, binary: BinaryRun, name: str, number: int, test: TestRun | None) -> None:
        """Start an attempt; one of a test that runs is no start, unless it is the next one."""
        timeline, now = self.run.timeline, self.run.timeline.clock.now
        if test is not None and test.is_running() and number <= len(test.attempts):
            self.run.warn(f"{binary.id} {name} is started while it runs")
            return
        if test is None or not test.can_retry(number):
            test = timeline.add_test(binary, name, now)
        timeline.open_attempt(test, number, now)

    def _place_of(self, full_name: str) -> tuple[BinaryRun, str, int]:
        """Return the binary of a test, the test's name there, and which attempt it is."""
        prefix, _, name = full_name.partition("$")
        binary = self.run.last_binary or self.sequence.start()
        if binary.prefix != prefix and binary.known_id is not None:
            binary = self.by_prefix.get(prefix) or self.sequence.start()
        if binary.known_id is None:
            self.name_binary(binary, prefix, prefix)
        if not binary.suites:
            binary.add_suite(0)
        retry = RETRY.fullmatch(name)
        known = self.run.timeline.latest.get((binary.id, name))
        if retry is None or known is not None and known.is_running():
            return binary, name, 1
        return binary, retry[1], int(retry[2])
