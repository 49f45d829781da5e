"""How a page tells the use of slots and the critical path, in Chromium."""

from __future__ import annotations

import pytest

from tests import EXAMPLES
from tests.browser import NEXT_FRAME
from tests.made import exit_code, failed, finished, retried, script_events, session_of
from tests.made import started, status
from tests.opened_page import Page
from tests.page_sessions import many_tests
from tests.pages.test_timeline import AXIS, columns

pytestmark = pytest.mark.browser

PAUSED = (EXAMPLES / "pause_and_retry.session").read_text()
# As the style has it.
ACCENT = (36, 87, 197)


def cells(page: Page) -> list[str]:
    """Return the lines of the table of slots."""
    return page.texts("[...document.querySelectorAll('.slots tr')].map((row) => row.innerText)")


def on_path(page: Page) -> list[str]:
    """Return the longest tests on the critical path."""
    return page.texts("[...document.querySelectorAll('.path .name')].map((one) => one.innerText)")


def test_slots_are_told_as_the_program_does(page: Page) -> None:
    # `rezovamy slots` prints for both: run=11000000000 busy=6000000000 paused=3000000000
    # idle=2000000000.
    page.open(PAUSED)
    assert page.inner(".slots h3") == "2 slots"
    assert page.inner(".slots .told") == "Busy 12.0s, idle 4.0s: 75% busy outside of pauses."
    assert [line.split("\t") for line in cells(page)] == [
        ["Slot", "busy", "paused", "idle"],
        ["slot 0", "6.0s", "3.0s", "2.0s"],
        ["slot 1", "6.0s", "3.0s", "2.0s"],
    ]


def test_the_critical_path_goes_back_over_retries(page: Page) -> None:
    # t4 waited for the second attempt of t2, and that for the first one, which ran for 3 of the
    # 6 seconds, since 3 were paused.
    page.open(PAUSED)
    told = page.inner(".path .told")
    assert told.startswith("3 attempts, each of which waited for the one before, took 6.0s of 8.0s")
    assert on_path(page) == ["t2 alpha::a", "t4 beta::b"]
    page.evaluate(NEXT_FRAME)
    # The lines are at the end of the second row of 24 pixels: below two parts of the first attempt,
    # the second attempt, and t4.
    widths = columns(page, "canvas", AXIS + 47, ACCENT)
    assert len(widths) == 4
    assert widths[0] == pytest.approx(2 * widths[1], abs=3)


def ran(name: str, slot: int, begin: float, end: float) -> list[object]:
    """Return the events of a test that passes."""
    ended = status(begin, end - begin)
    return [started(begin, name, slot), finished(end, name, ended)]


@pytest.mark.parametrize(
    ("tests", "told", "names"),
    [
        # A test as long as the run.
        ([("long", 0, 0, 9), ("a", 1, 0, 4), ("b", 1, 4, 8)], "1 attempt", ["long alpha"]),
        # The one before on its slot, not the one that ended last.
        (
            [("a", 0, 0, 3), ("b", 1, 0, 4), ("c", 0, 4, 9)],
            "2 attempts",
            ["c alpha", "a alpha"],
        ),
        # A slot that was never used before.
        ([("a", 0, 0, 3), ("c", 1, 4, 9)], "2 attempts", ["c alpha", "a alpha"]),
    ],
)
def test_what_a_test_waited_for(
    page: Page, tests: list[tuple[str, int, float, float]], told: str, names: list[str]
) -> None:
    timed = [one for test in tests for one in zip((test[2], test[3]), ran(*test))]
    page.open(session_of([one for _, one in sorted(timed, key=lambda pair: pair[0])]))
    assert page.inner(".path .told").startswith(f"{told}, ")
    assert on_path(page) == names


def test_a_setup_script_is_on_the_critical_path(page: Page) -> None:
    first = status(2, 1, exit_code(), 1, 2)
    second = status(4, 1, "pass", 2, 2)
    page.open(
        session_of(
            [
                *script_events(0, 1, status(0, 1)),
                started(2, "t", 0),
                failed(3, "t", first),
                retried(4, "t", 2, 2, 1),
                finished(5, "t", first, second),
            ]
        )
    )
    assert page.inner(".path .told").startswith("3 attempts, ")
    assert on_path(page) == ["t alpha", "database setup script"]


def test_ten_thousand_tests_have_a_critical_path(page: Page) -> None:
    # Eight slots run 1,250 tests each, a second apart, for half a second.
    page.open(many_tests())
    assert page.inner(".path .told").startswith("1,250 attempts, ")
    assert page.inner(".slots .told").endswith("50% busy outside of pauses.")


def test_a_run_without_tests_has_neither(page: Page) -> None:
    page.open(session_of([]))
    assert page.number("document.querySelectorAll('.slots, .path').length") == 0
