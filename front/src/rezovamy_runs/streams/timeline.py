"""The tests of a run and their attempts, each with the instants and the lines of its steps."""

from __future__ import annotations

import dataclasses

from rezovamy_runs.streams.clock import Clock
from rezovamy_runs.streams.failure_messages import errors_of
from rezovamy_runs.streams.messages import MOST_SECONDS, SECOND, TestEvent
from rezovamy_runs.streams.test_runs import (
    Attempt,
    BinaryRun,
    Mark,
    Result,
    Suite,
    TestRun,
)
from rezovamy_runs.streams.texts import printable, to_bytes


@dataclasses.dataclass
class Timeline:
    """The tests of a run in the order in which they came; `latest` has the last run of each."""

    clock: Clock
    line: int = 0
    tests: list[TestRun] = dataclasses.field(default_factory=list)
    latest: dict[tuple[str, str], TestRun] = dataclasses.field(default_factory=dict)

    def advance(self) -> None:
        """Go to the next line."""
        self.line += 1
        self.clock.tick()

    def mark(self, instant: int) -> Mark:
        """Return a mark of the line at an instant."""
        return Mark(instant, self.line)

    def now(self) -> Mark:
        """Return the mark of the line."""
        return self.mark(self.clock.now)

    def add_test(self, binary: BinaryRun, name: str, begin: int) -> TestRun:
        """Add a run of the test after its last one, with its first attempt."""
        previous = self.latest.get((binary.id, name))
        end = (previous.skipped or previous.last.ended) if previous else None
        earliest = end.time if end else begin - MOST_SECONDS * SECOND
        test = TestRun(binary.id, name, earliest, previous)
        test.attempts.append(Attempt(self.mark(max(begin, earliest))))
        self.latest[test.key] = test
        self.tests.append(test)
        binary.suites[-1].add(test)
        return test

    def remove_attempt(self, test: TestRun) -> None:
        """Take back the last attempt of a test, and the test where it has none left."""
        test.attempts.pop()
        if test.attempts:
            return
        self.tests.remove(test)
        if self.latest.get(test.key) is test:
            del self.latest[test.key]
            self.latest.update({test.key: test.previous} if test.previous else {})

    def apply(self, test: TestRun, number: int, event: TestEvent) -> None:
        """End the attempt of this number, or say that it is slow, or that the test is ignored."""
        if event.kind == "ignored":
            test.skipped, test.reason = self.now(), event.message
            return
        is_measured = event.taken is not None and self.clock.source is not None
        self.open_attempt(test, number, self.clock.start_of(event.taken), is_measured)
        attempt, taken = test.last, event.taken
        if event.kind == "timeout":
            attempt.slow = self.mark(self.clock.warning_of(attempt.start.time, taken))
            return
        attempt.output = None if event.output is None else to_bytes(event.output).hex()
        passed = event.kind == "ok"
        output = printable(event.output or "")
        attempt.errors = [] if passed else errors_of([output], event.message)
        failed: Result = "failed-timed-out" if event.is_timed_out else "failed"
        end = self.mark(self.clock.end_of(attempt.start.time, taken))
        end_attempt(attempt, end, "passed" if passed else failed, taken)

    def open_attempt(
        self, test: TestRun, number: int, begin: int, is_measured: bool = False
    ) -> None:
        """Open the attempt of this number; of those before it that have no end it says they failed.

        An open attempt starts at the instant where that is measured, and no later than that, but
        not before what ended earlier.
        """
        attempts = test.attempts
        begin = max(begin, attempts[-2].ended.time if len(attempts) > 1 else test.earliest)
        last = test.last
        is_later = is_measured and number == len(attempts)
        if last.end is None and (begin < last.start.time or is_later):
            last.start = Mark(begin, last.start.line)
        while len(attempts) < number:
            last = test.last
            if last.end is None:
                end_attempt(last, self.mark(max(begin, last.start.time)), "failed")
            attempts.append(Attempt(self.mark(max(begin, last.ended.time))))

    def time_out(self, suite: Suite) -> None:
        """End the tests that were slow and of which nothing more came until their suite ended."""
        for test in suite.running():
            attempt = test.last
            if attempt.slow:
                taken = attempt.slow.time - attempt.start.time
                end = self.mark(self.clock.end_of(attempt.start.time, taken))
                end_attempt(attempt, end, "failed-timed-out")


def end_attempt(attempt: Attempt, end: Mark, result: Result, taken: int | None = None) -> None:
    """End an attempt at a mark."""
    attempt.end, attempt.result = end, result
    attempt.taken = end.time - attempt.start.time if taken is None else taken
    if attempt.slow:
        attempt.slow = min(attempt.slow, end)
