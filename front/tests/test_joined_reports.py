"""One report of those of several runs."""

from __future__ import annotations

import pytest

from rezovamy_runs.report.joined_reports import joined
from rezovamy_runs.report.run_report import (
    Attempt,
    Case,
    Duration,
    Fault,
    Instant,
    NonSuccess,
    Outputs,
    Report,
    Skipped,
    Status,
    Success,
    Suite,
)
from rezovamy_runs.store.as_one import Parts

NOWHERE = Outputs()


def failure(text: str, *attempts: Attempt) -> NonSuccess:
    """Return a failure with this message, after attempts."""
    return NonSuccess(Fault("failure", "test failure", text), attempts=attempts)


def attempt(text: str, at: int) -> Attempt:
    """Return an attempt that failed so, in the run that started at this second."""
    fault = Fault("failure", "test failure", text)
    return Attempt(fault, Instant(at, 0, 0), Duration(1, 0), NOWHERE)


def report(at: int, status: Status, took: int = 5, name: str = "t") -> Report:
    """Return the report of a run of one test that started at this second."""
    case = Case(name, "b", status, Instant(at, 0, 0), Duration(1, 0))
    return Report("run", f"id{at}", Instant(at, 0, 0), Duration(took, 0), (Suite("b", (case,)),))


PASS, SKIP = Success(), Skipped("no")
CASES = [
    ("passed twice", PASS, PASS, False, PASS),
    ("passed in one shard", failure("x"), PASS, False, failure("x")),
    ("failed in a later shard", PASS, failure("x"), False, failure("x")),
    ("failed in both shards", failure("x"), failure("y"), False, failure("y", attempt("x", 1))),
    ("passed again", failure("x"), PASS, True, Success((attempt("x", 1),))),
    ("failed again", failure("x"), failure("y"), True, failure("y", attempt("x", 1))),
    ("skipped again", failure("x"), SKIP, True, failure("x")),
    ("skipped in a later shard", PASS, SKIP, False, PASS),
    ("skipped in an earlier shard", SKIP, failure("x"), False, failure("x")),
    (
        "passed at the third time",
        failure("y", attempt("x", 0)),
        PASS,
        True,
        Success((attempt("x", 0), attempt("y", 1))),
    ),
]


@pytest.mark.parametrize(
    "first, second, is_again, status", [row[1:] for row in CASES], ids=[row[0] for row in CASES]
)
def test_a_test_of_two_runs(first: Status, second: Status, is_again: bool, status: Status) -> None:
    parts = Parts((("a", "b"),)) if is_again else Parts((("a",), ("b",)))
    found = joined({"a": [report(1, first)], "b": [report(2, second)]}, parts)
    ((case,),) = (suite.cases for suite in found.suites)
    assert case.status == status


def test_the_whole_goes_from_the_first_start_to_the_last_end() -> None:
    reports = {"a": [report(10, PASS, 20)], "b": [report(13, PASS, 3, "u")]}
    found = joined(reports, Parts((("a",), ("b",))))
    assert (found.timestamp, found.time) == (Instant(10, 0, 0), Duration(20, 0))
    assert [[case.name for case in suite.cases] for suite in found.suites] == [["t", "u"]]
