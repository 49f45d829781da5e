"""What is printed of runs."""

from __future__ import annotations

import dataclasses
import pathlib

import pytest

from rezovamy_runs.model import (
    Attempt,
    Counts,
    Result,
    Run,
    Script,
    Status,
    Test,
    TestName,
    Verdict,
)
from rezovamy_runs.report.run_text import Printer
from rezovamy_runs.terminal import Paint

PLAIN = Printer(Paint(False))
CUTTING = Printer(Paint(False), 4)


def attempt(
    result: str,
    detail: str = "",
    *,
    number: int = 1,
    total: int = 1,
    started: float = 0.0,
    seconds: float = 0.0,
    is_slow: bool = False,
    stdout: bytes | None = None,
    stderr: bytes | None = None,
    combined: bytes | None = None,
    errors: str | None = None,
    stdout_had: int | None = None,
) -> Attempt:
    """An attempt, the only one if nothing else is said."""
    return Attempt(
        number,
        total,
        started,
        None,
        Result(result),
        detail,
        seconds,
        is_slow,
        stdout,
        stderr,
        combined,
        errors,
        {} if stdout_had is None else {"stdout": stdout_had},
    )


def finished(name: str, *attempts: Attempt, flaky_fails: bool = False) -> Test:
    """A test that ended after these attempts."""
    if not attempts[-1].passed or flaky_fails:
        return Test("alpha", name, Verdict.FAIL, attempts)
    return Test("alpha", name, Verdict.PASS if len(attempts) == 1 else Verdict.FLAKY, attempts)


def run_of(*tests: Test, counts: Counts = Counts(), status: str = "completed") -> Run:
    """A run of three seconds."""
    return Run(
        id="id",
        bundle=pathlib.Path(),
        size=0,
        profile="default",
        started=0.0,
        elapsed=3.0,
        status=Status(status),
        exit_code=0,
        counts=counts,
        nextest_version="",
        cli_args=(),
        tests=tests,
    )


def lines(*tests: Test, with_passed: bool = False, printer: Printer = PLAIN) -> list[str]:
    """What is printed of tests: of all, or of those that failed."""
    return list(printer.tests(tests) if with_passed else printer.failures(tests))


# Tests.


def test_only_what_failed_comes() -> None:
    passed = finished("good", attempt("pass", started=5.0, seconds=1.0, stdout=b"fine\n"))
    failed = finished(
        "bad",
        attempt("fail", "exit code 1", started=3.0, seconds=0.5, stdout=b"no\n", stderr=b"why\xff"),
    )
    skipped = Test("alpha", "off", Verdict.SKIP, reason="ignored")
    bad = [
        "FAIL [0.500s] alpha bad (exit code 1)",
        "  standard output",
        "    no",
        "  standard error",
        "    why\\xff",
    ]
    good = ["PASS [1.0s] alpha good", "  standard output", "    fine"]
    assert lines(passed, failed, skipped) == bad
    assert lines(passed, failed, skipped, with_passed=True) == [
        "SKIP alpha off (ignored)",
        *bad,
        *good,
    ]


def test_failures_in_the_order_of_their_names() -> None:
    """What they printed is left out if it has been told."""
    tests = [
        finished("c", attempt("fail", "exit code 1", started=1.0, stdout=b"no\n")),
        finished("b", attempt("pass", started=2.0)),
        finished("a", attempt("abort", "signal 6", started=3.0)),
    ]
    first, second = "ABORT [0.000s] alpha a (signal 6)", "FAIL [0.000s] alpha c (exit code 1)"
    assert list(PLAIN.failures(tests)) == [first, second, "  standard output", "    no"]
    named = Printer(Paint(False), with_outputs=False)
    assert list(named.failures(tests)) == [first, second]


def test_tests_that_never_started() -> None:
    """They are named, only the first of them where less is wanted."""
    names = tuple(TestName("alpha", f"t{number:02}") for number in range(25))
    run = dataclasses.replace(run_of(), never_started=names)
    found = [f"NEVER STARTED alpha t{number:02}" for number in range(25)]
    assert list(PLAIN.never_started(run)) == found
    more = ".. 5 more never started, `rezovamy-runs show` has them .."
    assert list(CUTTING.never_started(run)) == [*found[:20], more]


def test_attempts_come_in_their_order() -> None:
    first = attempt("abort", "signal 6", total=2, seconds=2.0, is_slow=True, combined=b"x\n\ny")
    second = attempt("pass", number=2, total=2, started=3.0, seconds=1.0, combined=b"z")
    assert lines(finished("t", first, second)) == [
        "ABORT [2.0s] alpha t (attempt 1 of 2, signal 6, slow)",
        "  output",
        "    x",
        "",
        "    y",
        "PASS [1.0s] alpha t (attempt 2 of 2)",
    ]


@pytest.mark.parametrize(
    ("errors", "output", "told"),
    [
        ("it ended", None, ["  error", "    it ended"]),
        ("it ended", b"so it ended", ["  output", "    so it ended"]),
        (
            "panicked at x.rs:1 no",
            b"panicked at x.rs:1\nno",
            ["  output", "    panicked at x.rs:1", "    no"],
        ),
    ],
)
def test_errors_come_where_the_output_lacks_them(
    errors: str, output: bytes | None, told: list[str]
) -> None:
    test = finished("t", attempt("fail", errors=errors, combined=output))
    assert lines(test)[1:] == told


def test_a_test_without_an_end() -> None:
    assert lines(Test("alpha", "t", Verdict.UNFINISHED, (attempt("unfinished"),))) == [
        "UNFINISHED alpha t"
    ]


def test_flaky_tests_that_fail() -> None:
    attempts = (
        attempt("fail", total=2),
        attempt("pass", number=2, total=2, started=1.0),
    )
    found = lines(finished("t", *attempts, flaky_fails=True))
    assert found[-1] == "    it passed at last, and flaky tests fail in this run"


def test_long_outputs_may_be_cut() -> None:
    test = finished("t", attempt("fail", combined=b"1\n2\n3\n4\n5\n6\n"))
    assert lines(test, printer=CUTTING)[2:] == [
        "    1",
        "    2",
        "    .. 2 lines are left out here, `rezovamy-runs show` has them ..",
        "    5",
        "    6",
    ]


def test_very_long_lines_may_be_cut() -> None:
    test = finished("t", attempt("fail", combined=b"a" * 5000 + b"b" * 5000 + b"\nshort\n"))
    first, second = lines(test, printer=CUTTING)[2:]
    note = " .. 8000 characters are left out here, `rezovamy-runs show` has them .. "
    assert (first, second) == (f"    {'a' * 1000}{note}{'b' * 1000}", "    short")
    assert "a" * 5000 + "b" * 5000 in lines(test)[2]


def test_an_output_that_was_cut_says_so() -> None:
    test = finished("t", attempt("fail", stdout=b"x", stdout_had=2048))
    assert lines(test)[1] == "  standard output, cut when it was recorded; it had 2.0 KiB"


def test_names_are_harmless() -> None:
    assert lines(finished("a\nb", attempt("fail"))) == ["FAIL [0.000s] alpha a\\x0ab"]


def test_scripts_that_failed() -> None:
    good = Script("good", 0, "sh", (), attempt("pass"))
    bad = Script("bad", 1, "sh", (), attempt("fail", "exit code 1", combined=b"no"))
    assert list(PLAIN.scripts([good, bad], False)) == [
        "FAIL [0.000s] setup script bad (exit code 1)",
        "  output",
        "    no",
    ]


# Ends.


@pytest.mark.parametrize(
    ("run", "line"),
    [
        (
            run_of(counts=Counts(passed=3, failed=1, flaky=1, skipped=2, unseen=1)),
            "5 tests in 3.0s: 3 passed (1 flaky), 1 failed, 1 never ended, 2 skipped",
        ),
        (run_of(counts=Counts(passed=1)), "1 test in 3.0s: 1 passed"),
        (run_of(status="cancelled"), "0 tests in 3.0s: 0 passed; the run was broken off"),
        (
            run_of(status="incomplete"),
            "0 tests in 3.0s: 0 passed; the recording stopped before the run ended",
        ),
    ],
    ids=["all counts", "one test", "cancelled", "incomplete"],
)
def test_the_end_of_a_run(run: Run, line: str) -> None:
    assert PLAIN.end(run) == line


def test_the_slowest_come_first() -> None:
    tests = [finished(f"t{place}", attempt("pass", seconds=float(place))) for place in range(7)]
    assert PLAIN.slowest(run_of(*tests)) == [
        "slowest tests:",
        "      6.0s  alpha t6",
        "      5.0s  alpha t5",
        "      4.0s  alpha t4",
        "      3.0s  alpha t3",
        "      2.0s  alpha t2",
    ]
    assert PLAIN.slowest(run_of(*tests[:1])) == []
