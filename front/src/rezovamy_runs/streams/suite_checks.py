"""What the numbers of a suite tell of its tests: which are made up, and how others ended."""

from __future__ import annotations

import bisect

from rezovamy_runs.streams.messages import SuiteCounts
from rezovamy_runs.streams.run_state import RunState
from rezovamy_runs.streams.test_runs import Attempt, BinaryRun, Mark, Suite, TestRun
from rezovamy_runs.streams.timeline import end_attempt


def ends_suite(suite: Suite) -> bool:
    """Return whether a line ends this suite.

    While a test runs it is that of a suite which the test prints, unless all have ended that were
    announced: the others are made up then.
    """
    running = suite.running()
    if running and suite.nested_depth:
        suite.nested_depth -= 1
        return False
    return not running or len(suite.tests) - len(running) >= suite.count


def out_of_order(suite: Suite, tests: list[TestRun]) -> list[TestRun]:
    """Return the tests outside of the longest row whose names ascend, as libtest starts tests."""
    if not suite.is_sorted:
        return []
    tops: list[int] = []
    names: list[str] = []
    links: list[int | None] = []
    for place, test in enumerate(tests):
        level = bisect.bisect_left(names, test.name)
        links.append(tops[level - 1] if level else None)
        tops[level : level + 1], names[level : level + 1] = [place], [test.name]
    row: set[int] = set()
    link = tops[-1] if tops else None
    while link is not None:
        row.add(link)
        link = links[link]
    return [test for place, test in enumerate(tests) if place not in row]


def made_up(suite: Suite) -> list[TestRun]:
    """Return the tests beyond the number that a suite announced, where something tells which."""
    left: list[TestRun] = suite.tests
    found: list[TestRun] = []
    for suspects_of in (nested, running_after_end, out_of_order):
        suspects = set(suspects_of(suite, left)) if len(left) > suite.count else set()
        # As many have to stay as were announced.
        if len(left) - len(suspects) >= suite.count:
            found += [test for test in left if test in suspects]
            left = [test for test in left if test not in suspects]
    return found


def nested(suite: Suite, _tests: list[TestRun]) -> list[TestRun]:
    """Return the tests that began in a suite which a test printed."""
    return suite.nested


def running_after_end(suite: Suite, tests: list[TestRun]) -> list[TestRun]:
    """Return the tests that run although their suite has ended."""
    return [test for test in tests if suite.has_ended and test.is_running()]


def drop_made_up(run: RunState, binary: BinaryRun, suite: Suite) -> None:
    """Take back the tests that only a test's output has begun."""
    for test in made_up(suite):
        suite.remove(test)
        run.timeline.remove_attempt(test)
        told = "is no test of its suite; another one printed its lines"
        run.warn(f"{binary.id} {test.name} {told}")
    surplus = len(suite.tests) - suite.count
    if surplus > 0:
        more = f"{surplus} tests more than its suite announced"
        run.warn(f"{binary.id} has {more}; which are made up can't be told")


def choose_ends(run: RunState, binary: BinaryRun, suite: Suite) -> None:
    """Give tests that ended twice the end that came before.

    The number of failures at the end of the suite tells where that is so.
    """
    failed = [test for test in suite.tests if test.has_failed()]
    surplus = len(failed) - (len(failed) if suite.counts.failed is None else suite.counts.failed)
    if not surplus:
        return
    tests = failed if surplus > 0 else [test for test in suite.tests if has_passed(test)]
    others = [(test, other_end(test.last)) for test in tests]
    doubtful = [(test, other) for test, other in others if other]
    if len(doubtful) == abs(surplus):
        for test, other in doubtful:
            test.attempts[-1] = other
            told = "its first end counts, by the number of failures at the end of the suite"
            run.warn(f"{binary.id} {test.name}: {told}")


def has_passed(test: TestRun) -> bool:
    """Return whether a test has ended, and passed."""
    return not (test.skipped or test.is_running() or test.has_failed())


def other_end(attempt: Attempt) -> Attempt | None:
    """Return the attempt with its last end that says otherwise; None where there is none."""
    passed = attempt.result == "passed"
    newest_first = reversed(attempt.superseded)
    return next((one for one in newest_first if (one.result == "passed") != passed), None)


def end_by_numbers(run: RunState, binary: BinaryRun) -> None:
    """End a suite whose end came while tests of it seemed to run, where its numbers let these pass.

    A test that lets its standard output go elsewhere for a while takes the lines of others with it.
    """
    suite = binary.suite
    if suite is None or suite.counted_at is None:
        return
    counts, running = suite.last_counts or SuiteCounts(), suite.running()
    failed = sum(test.has_failed() for test in suite.tests)
    skipped = sum(test.skipped is not None for test in suite.tests)
    passed = len(suite.tests) - len(running) - failed - skipped
    left = (counts.passed or 0) + (counts.measured or 0) - passed
    if (counts.failed, counts.ignored) != (failed, skipped):
        return
    if left != len(running) + suite.unseen():
        return
    time, line = suite.counted_at
    for test in running:
        end_attempt(test.last, Mark(max(time, test.last.start.time), line), "passed")
    suite.has_ended, suite.counts, suite.count = True, counts, len(suite.tests)
    told = "they passed, by the numbers at the end of its suite"
    run.warn(f"{binary.id}: no line says that {left} of its tests ended; {told}")
