"""Failures by their causes in Chromium: one message, one crash, one timeout are one group."""

from __future__ import annotations

import pytest

from tests import made
from tests.made import (
    exit_code,
    finished,
    run_finished,
    run_started,
    script_events,
    session_of,
    skipped,
    started,
    status,
)
from tests.opened_page import Page

pytestmark = pytest.mark.browser

CRASH = "the test binary ended while this test ran: signal 11, SIGSEGV"
TIMEOUT = {"timeout": "fail"}


def failing(number: int, name: str, errors: list[str], result: object = None) -> list[object]:
    """Return the events of a test that fails with these errors."""
    split = {"stdout": "", "stderr": ""}
    output = {"output": {"output": {"split": split}, "errors": errors}}
    ended = status(number, 1, result or exit_code(), output=output)
    return [started(number, name, number % 4), finished(number + 1, name, ended)]


def with_causes() -> str:
    """Return a run of 8 failures with 4 causes, and of a test that never ended."""
    events = []
    for number, port in enumerate([80, 81, 82]):
        error = f"panicked at tests/net.rs:{number + 5}:9: no answer from port {port}"
        events += failing(number, f"asks_{port}", [error])
    for number, name in enumerate(["reads", "writes"], 3):
        events += failing(number, name, [CRASH, "Beside it ran the other one."])
    for number, name in enumerate(["waits", "sleeps"], 5):
        events += failing(number, name, [], TIMEOUT)
    events += failing(7, "alone", ["Error: nothing is like it"])
    events += [started(8, "hangs", 0), started(8, "passes", 1)]
    events += [finished(9, "passes", status(8, 1)), skipped(9, "later")]
    return session_of(events)


def groups(page: Page) -> list[str]:
    """Return the heads of the groups, each in a line."""
    heads = "[...document.querySelectorAll('.cause summary')]"
    return page.texts(f"{heads}.map((head) => head.innerText.split(/\\s+/).join(' ').trim())")


def test_failures_with_one_cause_are_a_group(page: Page) -> None:
    page.open(with_causes())
    assert groups(page) == [
        "✕ 3 no answer from port …",
        "✕ 2 alpha ended while these tests ran: signal 11, SIGSEGV",
        "✕ 2 timed out",
    ]
    sections = page.texts("[...document.querySelectorAll('h3')].map((one) => one.innerText)")
    assert sections[:2] == ["8 failed, 4 causes", "1 unfinished"]
    assert page.inner("section > .items .name").startswith("alone")


def test_what_ran_beside_a_crash_is_told_apart(page: Page) -> None:
    page.open(with_causes())
    told = page.texts("[...document.querySelectorAll('.beside')].map((one) => one.innerText)")
    beside = "One of these tests crashed the process, or several did. The others ran beside it."
    assert told == [beside]


def test_all_numbers_count_the_same_tests(page: Page) -> None:
    page.open(with_causes())
    assert page.inner("#headline") == "8 failed, 1 unfinished, 1 passed, 1 skipped"
    assert page.inner("#facts span") == "11 tests"
    assert page.inner("#found") == "All 11 shown"
    states = "[...document.querySelectorAll('#states b')].map((one) => one.innerText)"
    assert page.texts(states) == ["8", "1", "1", "1"]
    items = "document.querySelectorAll('.cause .item, section > .items .why').length"
    assert page.number(items) == 9
    cells = "[...document.querySelectorAll('.binaries td')]"
    row = f"{cells}.slice(1, 5).map((one) => one.innerText)"
    assert page.texts(row) == ["8", "1", "1", "1"]


def with_waiting(named: list[str], total: int) -> str:
    """Return a run of a test that passes, with so many that never started, some of them named."""
    missing = {"not-seen": [made.test_of(name) for name in named], "total-not-seen": total}
    return session_of(
        [
            run_started(),
            started(0, "passes", 0),
            finished(1, "passes", status(0, 1)),
            run_finished(1, 1, outstanding_not_seen=missing),
        ]
    )


@pytest.mark.parametrize(
    ("named", "total", "found", "items"),
    [
        (["b", "c"], 2, "All 3 shown", ["b alpha", "c alpha"]),
        (["b"], 3, "2 of 4 shown; 2 have no name", ["b alpha", "2 more without a name"]),
        ([], 1, "1 of 2 shown; 1 has no name", ["1 without a name"]),
    ],
)
def test_tests_that_never_started_are_counted(
    page: Page, named: list[str], total: int, found: str, items: list[str]
) -> None:
    page.open(with_waiting(named, total))
    assert page.inner("#headline") == f"{total} never started, 1 passed"
    assert page.inner("#facts span") == f"{total + 1} tests"
    assert page.inner("#found") == found
    states = "[...document.querySelectorAll('#states b')].map((one) => one.innerText)"
    assert page.texts(states) == [str(total), "1"]
    assert page.inner("h3") == f"{total} never started"
    told = "#details > section .item .name, #details > section > .more"
    shown = f"[...document.querySelectorAll('{told}')].map((one) => one.innerText)"
    assert page.texts(shown) == items
    cells = "[...document.querySelectorAll('.binaries td:nth-child(2)')]"
    assert sum(map(int, page.texts(f"{cells}.map((cell) => cell.innerText)"))) == total
    assert page.rows() == [*named, "passes"]


def test_the_page_says_how_tests_count(page: Page) -> None:
    page.open(with_causes())
    said = "Each number counts a test once, by how it ended at last. Setup scripts aren't tests."
    assert said in page.details()


def test_a_setup_script_that_failed_is_counted_above_and_below(page: Page) -> None:
    ended = status(0, 1, exit_code(3), combined=b"")
    page.open(
        session_of(
            [
                *script_events(0, 1, ended),
                started(1, "passes", 0),
                finished(2, "passes", status(1, 1)),
            ]
        )
    )
    assert page.inner("#headline") == "1 setup script failed, 1 passed"
    assert page.inner("h3") == "1 setup script failed"


def test_very_many_failures_are_closed_groups(page: Page) -> None:
    events = []
    for number in range(100):
        events += failing(number, f"t{number}", [f"Error: code {number}"])
    page.open(session_of(events))
    assert groups(page) == ["✕ 100 Error: code …"]
    assert page.number("document.querySelectorAll('.cause[open]').length") == 0
    page.browser.press("n", text="n")
    page.browser.wait_until("document.querySelector('#details h2')")
    assert "t0" in page.inner("#details h2")


def test_a_narrow_window_shows_causes_in_the_list(page: Page) -> None:
    page.open(with_causes(), wide=420, high=900)
    assert page.fits(420)
    assert page.inner(".row .place") == "alpha · no answer from port 80"
    assert page.style(".item .why", "whiteSpace") == "normal"
