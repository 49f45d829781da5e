"""What a stream has told: runs of test binaries, their suites, and the tests in these."""

from __future__ import annotations

import dataclasses
from typing import Literal, NamedTuple

from rezovamy_runs.streams.messages import SuiteCounts
from rezovamy_runs.streams.targets import Target

Result = Literal["passed", "failed", "failed-timed-out"]


class Mark(NamedTuple):
    """A place in the order of events: an instant in nanoseconds, and the line that said so."""

    time: int
    line: int


@dataclasses.dataclass(frozen=True)
class Ending:
    """How a process ended: its exit code or its signal, and cargo's own words, if there are any."""

    code: int | None = None
    signal: int | None = None
    signal_name: str | None = None
    words: str | None = None


PASSED = Ending(0, None, None, "exit status: 0")
FAILED = Ending(101)


@dataclasses.dataclass(eq=False)
class Attempt:
    """A try of a test. `superseded` are copies of it with ends that came before its last one."""

    start: Mark
    slow: Mark | None = None
    end: Mark | None = None
    taken: int = 0
    result: Result | None = None
    ending: Ending = FAILED
    output: str | None = None
    errors: list[str] = dataclasses.field(default_factory=list)
    superseded: list[Attempt] = dataclasses.field(default_factory=list)

    @property
    def ended(self) -> Mark:
        """Where it ended, which has to be known."""
        if self.end is None:
            raise ValueError("the attempt hasn't ended")
        return self.end

    def reopen(self) -> None:
        """Forget the end, but keep a copy of it."""
        self.superseded.append(dataclasses.replace(self))
        self.end = None


@dataclasses.dataclass(eq=False)
class TestRun:
    """A test that was started or skipped, with its attempts.

    It can't have begun before `earliest`, an instant; `previous` is its run before this one.
    """

    __test__ = False

    binary_id: str
    name: str
    earliest: int
    previous: TestRun | None = None
    attempts: list[Attempt] = dataclasses.field(default_factory=list)
    skipped: Mark | None = None
    reason: str | None = None

    @property
    def key(self) -> tuple[str, str]:
        """What tells it from all other tests of a run."""
        return self.binary_id, self.name

    @property
    def last(self) -> Attempt:
        """The last attempt."""
        return self.attempts[-1]

    def is_running(self) -> bool:
        """Return whether nothing has said yet how it ended."""
        return self.skipped is None and self.last.end is None

    def has_failed(self) -> bool:
        """Return whether its last attempt has ended, and hasn't passed."""
        return self.skipped is None and self.last.end is not None and self.last.result != "passed"

    def can_retry(self, number: int) -> bool:
        """Return whether the attempt of this number can follow the last one."""
        return self.skipped is None and self.last.result != "passed" and number > len(self.attempts)


@dataclasses.dataclass(eq=False)
class Suite:
    """A suite of tests, as its lines tell it.

    `nested` are the tests that began in a suite which a test of this one printed, and
    `nested_depth` counts such suites that are open. `last_counts` are the numbers of an end that
    isn't believed yet, since tests of the suite run; they stood at `counted_at`, and nothing of
    the suite came after them.
    """

    count: int
    is_sorted: bool
    tests: list[TestRun] = dataclasses.field(default_factory=list)
    by_name: dict[str, TestRun] = dataclasses.field(default_factory=dict)
    has_ended: bool = False
    counts: SuiteCounts = SuiteCounts()
    last_counts: SuiteCounts | None = None
    counted_at: Mark | None = None
    nested_depth: int = 0
    nested: list[TestRun] = dataclasses.field(default_factory=list)

    def add(self, test: TestRun) -> None:
        """Take a test as one of the suite."""
        self.tests.append(test)
        self.by_name[test.name] = test

    def remove(self, test: TestRun) -> None:
        """Take a test out of the suite."""
        self.tests.remove(test)
        if self.by_name.get(test.name) is test:
            del self.by_name[test.name]

    def running(self) -> list[TestRun]:
        """Return the tests of which nothing says how they ended."""
        return [test for test in self.tests if test.is_running()]

    def unseen(self) -> int:
        """Count the tests that were announced, and never started."""
        return max(0, self.count - len(self.tests))


@dataclasses.dataclass(eq=False)
class BinaryRun:
    """One run of a test binary, or of the doctests of a crate.

    Its id may come later than its start. Cargo may say where it `failed_at`, and its `ending`. It
    was `replaced_at` the place at which another one was announced while its tests ran. `text` is
    what stands between its events.
    """

    number: int
    start: Mark
    target: Target | None = None
    known_id: str | None = None
    prefix: str | None = None
    suites: list[Suite] = dataclasses.field(default_factory=list)
    text: list[str] = dataclasses.field(default_factory=list)
    failed_at: Mark | None = None
    ending: Ending | None = None
    replaced_at: Mark | None = None
    is_judged: bool = False

    @property
    def id(self) -> str:
        """Its id in a session: a number where nothing names it."""
        return f"binary-{self.number}" if self.known_id is None else self.known_id

    def keep_id(self) -> None:
        """Let it be known by its number, where nothing has named it so far."""
        self.known_id = self.id

    def set_target(self, target: Target) -> None:
        """Take what is tested, by which it is named."""
        self.target, self.known_id = target, target.id

    @property
    def suite(self) -> Suite | None:
        """The suite that is open, if one is."""
        return self.suites[-1] if self.suites and not self.suites[-1].has_ended else None

    def can_print(self) -> bool:
        """Return whether it runs without libtest, as far as is known, and prints what it likes."""
        return not (self.suites or self.failed_at or self.is_judged)

    def has_ended_well(self) -> bool:
        """Return whether it has no name and no failure, so that a failure is of another one."""
        failed = any(test.has_failed() for test in self.tests())
        return self.target is None and bool(self.suites) and not (self.suite or failed)

    def add_suite(self, count: int, is_sorted: bool = False) -> Suite:
        """Open a suite."""
        suite = Suite(count, is_sorted)
        self.suites.append(suite)
        return suite

    def tests(self) -> list[TestRun]:
        """Return the tests of all its suites."""
        return [test for suite in self.suites for test in suite.tests]

    def running(self) -> list[TestRun]:
        """Return the tests of which nothing says how they ended."""
        return [test for test in self.tests() if test.is_running()]

    def unseen(self) -> int:
        """Count the tests that were announced, and never started."""
        return sum(suite.unseen() for suite in self.suites)

    def is_complete(self) -> bool:
        """Return whether its suites have ended, with all that they announced."""
        ended = (suite.has_ended and not suite.unseen() for suite in self.suites)
        return bool(self.suites) and all(ended)

    def number_of_tests(self) -> int:
        """Count its tests, with those that weren't asked for."""
        return sum(suite.count + (suite.counts.filtered_out or 0) for suite in self.suites)
