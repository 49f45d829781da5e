"""Which failures have one cause, in tables; and what a page has of them."""

from __future__ import annotations

import pytest

from rezovamy_runs.model import Attempt, Result
from rezovamy_runs.page.causes import Cause, cause_of, grouped, without_numbers


def bad(errors: str | None, result: Result = Result.FAIL, detail: str = "") -> Attempt:
    """Return an attempt that failed with these errors."""
    return Attempt(1, 1, 0.0, result=result, detail=detail, errors=errors)


@pytest.mark.parametrize(
    ("text", "told"),
    [
        ("port 8080 is taken", "port … is taken"),
        ("at 0x7f3c00a0 and 0XY", "at … and …XY"),
        ("took 1.25 s of 1,000", "took … s of …"),
        ("10:15:30", "…"),
        ("run 550e8400e29b failed", "run … failed"),
        ("a deadbeef of facade", "a deadbeef of facade"),
        ("no number", "no number"),
    ],
)
def test_numbers_and_addresses_are_set_aside(text: str, told: str) -> None:
    assert without_numbers(text) == told


@pytest.mark.parametrize(
    ("errors", "key", "title"),
    [
        ("Error: port 80 is taken", "Error: port … is taken", "Error: port 80 is taken"),
        (
            "panicked at tests/a.rs:7:5: no answer from 10.0.0.7\n more",
            "no answer from …",
            "no answer from 10.0.0.7",
        ),
        ("thread 'm::t' (12) panicked at a.rs:7:5:\nno answer\nnote: x", "no answer", "no answer"),
        ("thread 'm::t' panicked at a.rs:7:5:\nno answer", "no answer", "no answer"),
        (
            "panicked at a.rs:7:5: assertion `left == right` failed\n  left: 1\n right: 2",
            "assertion `left == right` failed at a.rs:7",
            "assertion `left == right` failed at a.rs:7",
        ),
        (
            "panicked at a.rs:7:5: assertion `left == right` failed: the sum",
            "assertion `left == right` failed: the sum",
            "assertion `left == right` failed: the sum",
        ),
        ("panicked at a.rs:7:5:", "panicked at a.rs:7", "panicked at a.rs:7"),
        ("panicked at a.rs:7:5: explicit panic", "explicit panic at a.rs:7", None),
        ("\x1b[31mError:\x1b[0m no", "Error: no", "Error: no"),
        ("x" * 400, "x" * 300, "x" * 300),
    ],
)
def test_a_message_is_a_cause(errors: str, key: str, title: str | None) -> None:
    assert cause_of("alpha", [bad(errors)]) == Cause(key, title or key)


@pytest.mark.parametrize(
    ("attempt", "title"),
    [
        (bad(None, Result.TIMEOUT), "timed out"),
        (bad("panicked at a.rs:1:1: no", Result.TIMEOUT), "timed out"),
        (bad("free(): invalid pointer", Result.ABORT, "SIGABRT"), "crashed, SIGABRT"),
        (bad(None, Result.ABORT, "signal 7"), "crashed, signal 7"),
        (bad(None, Result.FAIL, "exit code 3"), "failed, exit code 3"),
        (bad(None, Result.UNFINISHED), "never ended"),
        (bad("no such file", Result.EXEC_FAIL), "no such file"),
    ],
)
def test_an_end_without_words_is_a_cause(attempt: Attempt, title: str) -> None:
    assert cause_of("alpha", [attempt]) == Cause(title, title)


def test_a_test_that_passed_at_last_has_a_cause_of_its_own() -> None:
    attempts = [bad("Error: no"), Attempt(2, 2, 1.0, result=Result.PASS)]
    title = "it passed at a later attempt, which counts as a failure"
    assert cause_of("alpha", attempts) == Cause(title, title)


@pytest.mark.parametrize(
    ("beside", "is_shared"),
    [("Beside it ran b, c.", True), ("No other test ran beside it.", False)],
)
def test_a_crash_of_a_shared_process_tells_what_ran_beside(beside: str, is_shared: bool) -> None:
    errors = f"the test binary ended while this test ran: signal 6\n{beside}"
    title = "alpha ended while these tests ran: signal 6"
    assert cause_of("alpha", [bad(errors)]) == Cause(title, title, is_shared)


def test_groups_have_the_largest_first() -> None:
    causes = [
        (3, Cause("alone", "alone")),
        (4, Cause("port …", "port 1")),
        (5, Cause("same", "same", True)),
        (7, Cause("port …", "port 2")),
        (8, Cause("same", "same", True)),
        (9, Cause("port …", "port 2")),
    ]
    assert grouped(causes) == [
        {"title": "port …", "tests": [4, 7, 9]},
        {"title": "same", "tests": [5, 8], "shared": True},
        {"title": "alone", "tests": [3]},
    ]
