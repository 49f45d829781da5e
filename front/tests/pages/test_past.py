"""What a page in Chromium says of what a test did in the runs before."""

from __future__ import annotations

import pathlib

import pytest

from rezovamy_runs.model import TestName
from rezovamy_runs.page import document
from rezovamy_runs.page.past import Past, PastRun, PastTest
from tests.made import exit_code, finished, session_of, started, status
from tests.opened_page import READY, Page, written_page
from tests.page_sessions import MANY, many_tests, nasty_session

pytestmark = pytest.mark.browser

RUNS = tuple(PastRun(60 * number, "abcd" * 10, number == 2) for number in range(4))
TESTS = {
    "t": PastTest(".F-F", (1, 2, None, 4), "at-one-commit"),
    "flaky": PastTest(".~..", (1, 2, 3, 3), "at-one-commit"),
    "always": PastTest("FFFF", (1, 1, 1, 1), "always-fails"),
    "new": PastTest("---F", (None, None, None, 1), "always-fails"),
    "fixed": PastTest(".FF.", (1, 1, 1, 2), "over-commits"),
    "other": PastTest("s?FF", (None, None, 1, 1), "always-fails"),
}


def open_with_past(page: Page, session: str, past: Past, fragment: str = "") -> None:
    """Open the page of a run with what its tests did before."""
    written_page(session, page.folder)
    path = page.folder / "page.html"
    path.write_text(document.page_of(page.folder / "run.bundle", past=past))
    page.address = path.resolve().as_uri()
    page.browser.events.clear()
    page.browser.open(page.address + fragment, 1400, 900, False)
    page.browser.wait_until(READY)


def open_test(page: Page, name: str) -> None:
    """Open a page at one of the tests above."""
    events = [started(0, name), finished(1, name, status(0, 1, exit_code()))]
    known = {TestName("alpha", test): told for test, told in TESTS.items()}
    open_with_past(page, session_of(events), Past(RUNS, known), f"#alpha/{name}")


@pytest.mark.parametrize(
    ("name", "told"),
    [
        (
            "t",
            [
                "Flaky: it failed and passed at one commit.",
                "It failed 2 times since 1970-01-01 00:01:00, at commit abcdabcdabcd. "
                "It passed last on 1970-01-01 00:00:00, at commit abcdabcdabcd.",
            ],
        ),
        (
            "flaky",
            [
                "Flaky: it failed and passed at one commit.",
                "It takes 3.0s usually, from 1.0s to 3.0s; last 3.0s.",
            ],
        ),
        (
            "always",
            [
                "It failed each time in these runs, since 1970-01-01 00:00:00, at commit "
                "abcdabcdabcd, or longer."
            ],
        ),
        ("fixed", ["It takes 2.0s usually, from 1.0s to 2.0s; last 2.0s."]),
        (
            "other",
            [
                "It failed each time in these runs, since 1970-01-01 00:02:00, at commit "
                "abcdabcdabcd with changes, or longer."
            ],
        ),
    ],
)
def test_a_test_says_what_it_did_before(page: Page, name: str, told: list[str]) -> None:
    open_test(page, name)
    assert page.texts(
        "[...document.querySelectorAll('.before .told')].map((p) => p.innerText)"
    ) == (told)


def test_each_result_says_its_run_and_time(page: Page) -> None:
    open_test(page, "t")
    assert page.inner(".before h3") == "The last 3 results, this run at the end"
    told = page.texts("[...document.querySelectorAll('.past li')].map((one) => one.title)")
    assert told == [
        "passed, 1.0s, 1970-01-01 00:00:00, at commit abcdabcdabcd",
        "failed, 2.0s, 1970-01-01 00:01:00, at commit abcdabcdabcd",
        "failed, 4.0s, 1970-01-01 00:03:00, at commit abcdabcdabcd",
    ]
    heights = "[...document.querySelectorAll('.past i')].map((one) => one.style.height)"
    # The times, of which the longest is the whole height, are exact to half a percent.
    assert [round(float(one.rstrip("%")), -1) for one in page.texts(heights)] == [20, 50, 100]


@pytest.mark.parametrize("name", ["new", "unknown"])
def test_a_test_of_one_run_has_nothing_before(page: Page, name: str) -> None:
    open_test(page, name)
    assert page.number("document.querySelectorAll('.before').length") == 0


def test_a_setup_script_has_nothing_before_and_shifts_no_test(page: Page) -> None:
    known = {TestName("alpha", "later"): PastTest("..Fs", (1, 1, 1, None), "over-commits")}
    open_with_past(page, nasty_session(), Past(RUNS, known), "#alpha/later")
    states = "[...document.querySelectorAll('.past i')].map((one) => one.className)"
    assert page.texts(states) == [
        "is-cell-passed",
        "is-cell-passed",
        "is-cell-failed",
        "is-cell-skipped",
    ]
    page.search("database")
    assert "database" in page.details()
    assert page.number("document.querySelectorAll('.before').length") == 0


def test_many_tests_with_twenty_runs_before(page: Page) -> None:
    runs = tuple(PastRun(60 * number, f"{number:040x}") for number in range(20))
    times = tuple(0.5 + number / 100 for number in range(20))
    known = {
        TestName("alpha", f"test_{number}"): PastTest(
            "." * (number % 20) + "F" + "." * (19 - number % 20), times, "over-commits"
        )
        if number % 100 == 0
        else PastTest("." * 20, times)
        for number in range(MANY)
    }
    page.count_processor_time()
    open_with_past(page, many_tests(), Past(runs, known), "#alpha/test_1999")
    assert pathlib.Path(page.folder / "page.html").stat().st_size < 2_500_000
    assert page.number("document.querySelectorAll('.past li').length") == 20
    assert 0 < page.processor_time() < 1
