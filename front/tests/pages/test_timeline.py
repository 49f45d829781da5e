"""The timeline in Chromium: failures among many tests, bands, and the time that is selected."""

from __future__ import annotations

import pytest

from tests import EXAMPLES
from tests.browser import NEXT_FRAME
from tests.made import exit_code, failed, finished, retried, session_of, started, status
from tests.opened_page import Page
from tests.page_sessions import many_tests, nasty_session

pytestmark = pytest.mark.browser

PAUSED = (EXAMPLES / "pause_and_retry.session").read_text()
# As the style has them.
FAILED, FAILED_MARK, RETRIED = (203, 64, 54), (192, 52, 43), (208, 95, 87)
SUM = "#selected-sum"
AXIS = 22


def columns(page: Page, canvas: str, y: int, colour: tuple[int, int, int]) -> list[int]:
    """Return how wide each stretch of a colour is in a row of pixels of a canvas."""
    code = f"""(() => {{
        const canvas = document.getElementById("{canvas}"), found = [];
        const {{ data }} = canvas.getContext("2d").getImageData(0, {y}, canvas.width, 1);
        for (let x = 0, wide = 0; x <= canvas.width; x++) {{
            const is_it = data.slice(4 * x, 4 * x + 3).join() === "{','.join(map(str, colour))}";
            if (is_it) wide++;
            else if (wide) {{ found.push(wide); wide = 0; }}
        }}
        return found;
    }})()"""
    return [int(text) for text in page.texts(code)]


def one_retry_among_many() -> str:
    """Return a run of one slot with 2,000 short tests, of which one is tried again."""
    events = []
    for number in range(2000):
        name, first = f"t{number}", status(number, 0.01, exit_code(), 1, 2)
        events.append(started(number, name, 0))
        if number == 1000:
            events += [failed(number + 0.01, name, first), retried(number + 0.9, name, 2, 2, 1)]
            second = status(number + 0.9, 0.05, "pass", 2, 2)
            events.append(finished(number + 0.95, name, first, second))
        else:
            events.append(finished(number + 0.99, name, status(number, 0.99)))
    return session_of(events)


def test_each_failure_is_seen_among_ten_thousand_tests(page: Page) -> None:
    page.open(many_tests())
    page.evaluate(NEXT_FRAME)
    # All failures are in slot 7, the eighth row of 24 pixels.
    widths = columns(page, "canvas", AXIS + 7 * 24 + 12, FAILED)
    assert len(widths) == 10
    assert min(widths) >= 2
    marks = columns(page, "overview", 12, FAILED_MARK)
    assert (len(marks), min(marks)) == (10, 2)


def test_an_attempt_that_was_tried_again_is_seen_among_many(page: Page) -> None:
    page.open(one_retry_among_many())
    page.evaluate(NEXT_FRAME)
    assert len(columns(page, "canvas", AXIS + 12, RETRIED)) == 1
    assert len(columns(page, "overview", 20, RETRIED)) == 1


def test_pauses_and_scripts_are_bands_in_the_strip(page: Page) -> None:
    page.open(nasty_session())
    page.evaluate(NEXT_FRAME)
    # From 79 pixels on there are nine seconds: a script in the first, a pause from the third to
    # the fifth. The pause is hatched in several colours.
    code = """(() => {
        const canvas = document.getElementById("overview");
        const scale = (canvas.width - 79) / 9.036;
        const { data } = canvas.getContext("2d").getImageData(0, 4, canvas.width, 1);
        return [0.5, 4, 8.9].map((second) => {
            const x = Math.round(79 + second * scale), colours = new Set();
            for (let at = x; at < x + 16; at++) colours.add(data.slice(4 * at, 4 * at + 4).join());
            return [...colours].join(" ");
        });
    })()"""
    script, pause, nothing = page.texts(code)
    assert nothing == "0,0,0,0"
    assert script.split() != nothing.split()
    assert len(pause.split()) >= 2
    assert len(script.split()) < len(pause.split())


def drag(page: Page, begin: float, end: float, shift: bool = False) -> None:
    """Drag over the timeline from one second of the paused run of eleven to another one."""
    box = page.box("#canvas")
    # The names of the slots take 70 pixels.
    scale = (box["width"] - 70) / (11 * 1.004)
    y = box["top"] + AXIS + 30
    places = [(box["left"] + 70 + second * scale, y) for second in (begin, end)]
    page.browser.drag(places[0], places[1], shift)


def test_a_drag_sums_up_what_ran(page: Page) -> None:
    page.open(PAUSED)
    assert page.style("#selected", "display") == "none"
    drag(page, 0.5, 8.5)
    # t1, t2 and t3 ran: 1.5 s, 3 and 0.5 s, 3.5 s of twice the 5 s that weren't paused.
    summed = page.inner(SUM)
    assert summed.endswith(
        ": 3 tests ran, 1 failed attempt tried again; 8.5s of tests, 85% of 2 slots"
    )
    assert ", 8.0s: " in summed
    page.browser.press("Escape", 27)
    assert page.style("#selected", "display") == "none"


def test_a_drag_with_shift_moves_and_selects_nothing(page: Page) -> None:
    page.open(PAUSED)
    page.click("[data-zoom=in]")
    page.evaluate(NEXT_FRAME)
    drag(page, 5, 6, shift=True)
    assert page.style("#selected", "display") == "none"
    page.click("#time-link button")
    assert page.evaluate("location.hash") != "#?from=2.761000&to=8.283000"


@pytest.mark.parametrize(
    ("stretch", "summed"),
    [
        ("from=0&to=2", "2 tests ran; 3.0s of tests, 75% of 2 slots"),
        ("from=3.5&to=5.5", "0 tests ran; 0.000s of tests, 0% of 2 slots"),
        ("from=7&to=8", "1 test ran; 1.0s of tests, 50% of 2 slots"),
        ("from=10&to=11", "1 test ran; 1.0s of tests, 50% of 2 slots"),
    ],
)
def test_a_link_sums_up_a_stretch(page: Page, stretch: str, summed: str) -> None:
    page.open(PAUSED, fragment=f"#?{stretch}")
    told = page.inner(SUM).partition(": ")[2].replace(", 1 failed attempt tried again", "")
    assert told == summed


def test_a_selected_stretch_is_copied_and_zoomed_to(page: Page) -> None:
    page.open(PAUSED, fragment="#?from=2&to=4")
    page.click("[data-zoom=fit]")
    page.click("#time-link button")
    assert page.evaluate("location.hash") == "#?from=2.000000&to=4.000000"
    page.click("#selected-nearer")
    page.click("#selected-clear")
    page.click("#time-link button")
    assert page.evaluate("location.hash") == "#?from=2.000000&to=4.000000"


def test_a_key_sums_up_the_time_in_sight(page: Page) -> None:
    page.open(PAUSED)
    page.focus("#lanes")
    page.browser.press("s", text="s")
    assert page.inner(SUM).startswith("0.000s to 11.0s, 11.0s: 4 tests ran")
