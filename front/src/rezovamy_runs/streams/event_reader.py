"""Reads the events of suites and tests, some of which a test may have printed.

What a line of `nextest` says is believed. What a line of a test binary says is believed where it
fits what came before.
"""

from __future__ import annotations

from rezovamy_runs.streams import suite_checks
from rezovamy_runs.streams.binary_sequence import BinarySequence
from rezovamy_runs.streams.messages import SuiteEnd, SuiteStart, TestEvent
from rezovamy_runs.streams.nextest import NextestReader, id_of, prefix_of
from rezovamy_runs.streams.run_state import RunState
from rezovamy_runs.streams.targets import DOCTESTS
from rezovamy_runs.streams.test_runs import BinaryRun, Suite, TestRun


class EventReader:
    """Reads the events of a stream. Each method returns whether an event is believed."""

    def __init__(self, run: RunState, sequence: BinarySequence) -> None:
        self.run, self.sequence = run, sequence
        self.nextest = NextestReader(run, sequence)

    def start_suite(self, event: SuiteStart) -> bool:
        """Open a suite where none is open, or where only it says that the last binary has ended."""
        run, binary, named = self.run, self.run.last_binary, event.binary
        if named and run.is_libtest():
            return False
        if binary and binary.suite and run.has_announcements and not named:
            run.warn("a suite starts in another one; it isn't believed")
            binary.suite.nested_depth += 1
            return False
        if binary is None or named or self._has_run(binary):
            binary = self.sequence.start()
        if named:
            self.nextest.name_binary(binary, prefix_of(named), id_of(named))
        binary.add_suite(event.test_count, event.is_sorted)
        return True

    def _has_run(self, binary: BinaryRun) -> bool:
        """Return whether a suite is another binary's, since cargo announces none."""
        has_any = bool(binary.suites or binary.failed_at)
        return has_any and not self.run.has_announcements

    def end_suite(self, event: SuiteEnd) -> bool:
        """End the suite that is open, unless a test that runs prints the event."""
        run, named = self.run, event.binary
        if named and run.is_libtest():
            return False
        by_prefix = self.nextest.by_prefix.get(prefix_of(named)) if named else None
        binary = by_prefix or run.last_binary
        suite = binary.suite if binary else None
        if binary is None or suite is None:
            run.warn("a suite ends that isn't running")
            return run.is_nextest
        is_nested = suite.nested_depth > 0
        is_libtest = binary.prefix is None and not run.is_nextest
        if is_libtest and not suite_checks.ends_suite(suite):
            suite.last_counts = None if is_nested else event.counts
            suite.counted_at = run.timeline.now()
            return False
        run.timeline.time_out(suite)
        suite.counts, suite.has_ended = event.counts, True
        return True

    def read_test(self, event: TestEvent) -> bool:
        """Take an event of a test."""
        run = self.run
        if event.has_bad_time:
            run.warn("an exec_time that is no time")
        if self.nextest.has_name(event.name):
            self.nextest.read_test(event)
            return True
        if run.binaries:
            self.sequence.check_test(event)
        binary = run.last_binary
        if binary is None or binary.suite is None:
            return False
        binary.keep_id()
        if binary.target and binary.target.words == DOCTESTS and not binary.tests():
            binary.set_target(run.targets.doctests_by_file(binary.target, event.name))
        is_believed = self._read_of_suite(binary, binary.suite, event)
        if is_believed and binary.suite:
            binary.suite.last_counts = None
        if is_believed and binary.failed_at:
            run.warn(f"{binary.id} goes on, so that it hasn't failed yet")
            binary.failed_at = binary.ending = None
        return is_believed

    def _read_of_suite(self, binary: BinaryRun, suite: Suite, event: TestEvent) -> bool:
        """Take an event of a test of the suite that is open."""
        test = suite.by_name.get(event.name)
        if event.kind == "started":
            return test is None and self._start_test(binary, suite, event.name)
        return test is not None and self._end_test(test, event)

    def _start_test(self, binary: BinaryRun, suite: Suite, name: str) -> bool:
        """Start a test of a suite. One that failed when its binary ran before is tried again."""
        timeline, now = self.run.timeline, self.run.timeline.clock.now
        test = timeline.latest.get((binary.id, name))
        if test is not None and test.is_running() and not self.sequence.confirm_for(test):
            return False
        if test is not None and test.has_failed():
            suite.add(test)
            timeline.open_attempt(test, len(test.attempts) + 1, now)
        else:
            test = timeline.add_test(binary, name, now)
        if suite.nested_depth:
            suite.nested.append(test)
        return True

    def _end_test(self, test: TestRun, event: TestEvent) -> bool:
        """End a test of a suite. Of two ends the later one counts.

        A test can print no line after its own end.
        """
        is_running = test.is_running()
        if test.skipped or event.kind in ("ignored", "timeout") and not is_running:
            return False
        if not is_running:
            self.run.warn(f"{test.binary_id} {test.name} ends twice; the later line counts")
            test.last.reopen()
        self.run.timeline.apply(test, len(test.attempts), event)
        return True
