"""What is made of a binary that has ended, and of the end of a run.

Nothing that failed may look as if it hadn't.
"""

from __future__ import annotations

import re

from rezovamy_runs.escapes import without_escapes
from rezovamy_runs.streams import suite_checks
from rezovamy_runs.streams.cargo_output import NOT_COMPILED
from rezovamy_runs.streams.run_state import RunState
from rezovamy_runs.streams.targets import Target, own_names
from rezovamy_runs.streams.test_runs import (
    FAILED,
    PASSED,
    BinaryRun,
    Ending,
    Mark,
    Result,
    TestRun,
)
from rezovamy_runs.streams.texts import printable, to_bytes
from rezovamy_runs.streams.timeline import end_attempt

BUILD, RUN = "(build)", "(run)"
CARGO = Target("(cargo)")
LONGEST = 4000
SIGNALS = 64
# What parsers of words say of one that they don't know, among those that ask libtest for events.
REFUSES = re.compile(
    r"\b(?:unexpected|unrecogni[sz]ed|unknown|invalid|found) (?:argument|option|flag)[^\n]*"
    r"(?:\B-Z\b|'Z'|--report-time|--format|--show-output)",
    re.I,
)
FOR_PEOPLE = re.compile(r"running \d+ tests?\s*")


def judge(run: RunState, binary: BinaryRun, silent: Ending) -> None:
    """Judge a binary that has ended.

    Where cargo says nothing of it, `silent` is how its process ended.
    """
    if binary.is_judged or binary.prefix:
        return
    binary.is_judged = True
    binary.keep_id()
    if binary.suite and not binary.failed_at and (run.has_announcements or silent == PASSED):
        suite_checks.end_by_numbers(run, binary)
    for suite in binary.suites:
        suite_checks.drop_made_up(run, binary, suite)
        suite_checks.choose_ends(run, binary, suite)
    if run.cancel_reason:
        if not binary.suites and not binary.failed_at:
            start_own_test(run, binary)
        return
    if not binary.suites and any(FOR_PEOPLE.fullmatch(text) for text in binary.text):
        run.warn(
            f"{binary.id} says for people which tests run; "
            "-- -Z unstable-options --format json says it for programs"
        )
    end_binary(run, binary, binary.ending or (FAILED if binary.failed_at else silent))


def end_binary(run: RunState, binary: BinaryRun, ending: Ending) -> None:
    """End the tests that ran when a binary ended, or else a test by its own name, if it has one."""
    running = binary.running()
    for test in running:
        errors = errors_of_crash(binary, running, test, ending)
        end_test(run, binary, test, "failed", ending, errors)
    faults = [] if running else faults_of(binary)
    if faults or not binary.suites:
        test = start_own_test(run, binary)
        end_test(run, binary, test, "failed" if faults else "passed", ending, faults)
        test.last.output = output_of(binary.text)


def errors_of_crash(
    binary: BinaryRun, running: list[TestRun], test: TestRun, ending: Ending
) -> list[str]:
    """Return what is said of a test that ran when its binary ended."""
    others = [other.name for other in running if other is not test]
    beside = "No other test ran beside it."
    if others:
        beside = f"Beside it ran {', '.join(others[:9])}{' ..' * (len(others) > 9)}."
    printed = both_ends(without_escapes(printable("".join(binary.text))).strip())
    how = ending.words or "no line says how"
    errors = [f"the test binary ended while this test ran: {how}", beside]
    if printed:
        errors.append(f"What the binary printed outside of tests:\n{printed}")
    return errors


def both_ends(text: str) -> str:
    """Return the text, or its begin and its end where it is long.

    A crash says at its begin why it came, and at its end how.
    """
    half = LONGEST // 2
    left_out = len(text) - 2 * half
    if left_out <= 0:
        return text
    return f"{text[:half]}\n.. {left_out} characters are left out ..\n{text[-half:]}"


def faults_of(binary: BinaryRun) -> list[str]:
    """Return why a binary failed by itself, although none of its tests ran when it ended."""
    failed = sum(test.has_failed() for test in binary.tests())
    faults = []
    if binary.suite:
        unseen = f"{binary.suite.unseen()} of its {binary.suite.count} tests never started"
        faults.append(f"the test binary ended before its suite did; {unseen}")
    counted = sum(suite.counts.failed or 0 for suite in binary.suites)
    if counted > failed:
        by_lines = f"{failed} by their lines"
        faults.append(f"{counted} tests failed by the number at the end of the suite, {by_lines}")
    if binary.ending:
        faults.append(f"the process ended with {binary.ending.words}")
    if binary.failed_at and not (failed or faults):
        faults.append("cargo says that the target failed")
    if faults and not binary.suites and REFUSES.search(without_escapes("".join(binary.text))):
        faults.append(
            "it has no libtest, and refuses the words that ask libtest for events: "
            "run it apart, by `cargo test` alone"
        )
    return faults


def start_own_test(run: RunState, binary: BinaryRun, name: str | None = None) -> TestRun:
    """Start a test by a name, or by the binary's own.

    Where a test of this name ran, it is the binary's whole id, or that in brackets.
    """
    names = own_names(binary.id)
    names = [name or names[0], *names[1:]]
    taken = {test.name for test in binary.tests()}
    name = next((name for name in names if name not in taken), names[-1])
    timeline, begin = run.timeline, binary.start.time
    test = timeline.latest.get((binary.id, name))
    suite = binary.add_suite(1)
    if test is not None and test.has_failed():
        suite.add(test)
        timeline.open_attempt(test, len(test.attempts) + 1, begin)
    if test is None or not test.is_running():
        test = timeline.add_test(binary, name, begin)
    test.last.start = Mark(test.last.start.time, binary.start.line)
    return test


def end_test(
    run: RunState,
    binary: BinaryRun,
    test: TestRun,
    result: Result,
    ending: Ending,
    errors: list[str],
) -> None:
    """End the last attempt of a test where its binary is known to have failed or ended, or now."""
    attempt = test.last
    time, line = binary.failed_at or binary.replaced_at or run.timeline.now()
    end_attempt(attempt, Mark(max(time, attempt.start.time), line), result)
    attempt.ending, attempt.errors = ending, errors


def output_of(text: list[str]) -> str | None:
    """Return what a binary printed, as a session has it; None where that is nothing."""
    return to_bytes("".join(text)).hex() or None


def is_of_signal(status: int) -> bool:
    """Return whether a status is that of a process which a signal has ended.

    A shell says so by a number above 128, and the parent of a process by one below 0.
    """
    return 128 < status <= 128 + SIGNALS or -SIGNALS <= status < 0


def note_signal(run: RunState, status: int | None) -> None:
    """Let the run be broken off where a signal has ended cargo while a binary ran."""
    last = run.last_binary
    if last is None or last.failed_at or last.suites and not last.suite:
        return
    if is_of_signal(status or 0) and run.cancel_reason is None:
        run.cancel_reason = "interrupt" if status in (130, -2) else "signal"


def finish(run: RunState, status: int | None) -> None:
    """Judge what ran when the input ended, and the run by what cargo answered, if that is known."""
    if run.last_binary:
        judge(run, run.last_binary, PASSED if status == 0 else FAILED)
    run.never_ran += run.targets.never_ran()
    if run.build.errors and not run.cancel_reason and status != 0:
        fail_build(run)
    fault = fault_of_run(run, status)
    if fault and not run.cancel_reason and not run.has_failures():
        code = status or FAILED.code
        fail_run(run, RUN, run.timeline.now(), [fault], run.build.other_text, code)


def fault_of_run(run: RunState, status: int | None) -> str | None:
    """Return why a run counts as failed in which no test did; None where it doesn't."""
    if not status and run.never_ran:
        target = run.never_ran[0].id
        return f"a line announced {target} within another binary, and it never ran after that"
    if status is not None:
        told = f"cargo ended with status {status}, and no line says what failed"
        return told if status else None
    waiting = list(run.targets.waiting.values()) if run.has_announcements else []
    if waiting:
        never = f"{len(waiting)} test binaries that cargo built never ran"
        return f"the lines end before the run: {never}, the first is {waiting[0].id}"
    return "the last line is the begin of an event" if run.binaries and run.is_cut else None


def fail_build(run: RunState) -> None:
    """Make a failed test of a build that failed, or of an error where no binary came at all."""
    lines = [line for _, line in run.build.errors]
    broken = [line for line in lines if NOT_COMPILED.fullmatch(line)]
    if broken or not run.binaries:
        text = without_escapes(printable("".join(run.build.text))).strip()
        mark, _ = run.build.errors[0]
        errors = [(broken or lines)[0], text[:LONGEST]]
        fail_run(run, BUILD, mark, errors, run.build.text, FAILED.code)


def fail_run(
    run: RunState,
    name: str,
    mark: Mark,
    errors: list[str],
    text: list[str],
    code: int | None,
) -> None:
    """Make a test of cargo's own that failed."""
    binary = run.add_binary(CARGO)
    binary.start, binary.is_judged = mark, True
    test = start_own_test(run, binary, name)
    end_test(run, binary, test, "failed", Ending(code), errors)
    test.last.output = output_of(text)
