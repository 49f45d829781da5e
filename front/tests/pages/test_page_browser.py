"""Pages in a headless Chromium: by mouse, by keyboard, light and dark, of small and large runs."""

from __future__ import annotations

import base64
import re

import pytest

from tests import EXAMPLES
from tests.browser import NEXT_FRAME
from tests.made import (
    exit_code,
    failed,
    finished,
    retried,
    run_started,
    script_events,
    session_of,
    started,
    status,
)
from tests.opened_page import Page
from tests.page_sessions import many_tests, nasty_session, with_binary

pytestmark = pytest.mark.browser

SUMS = (EXAMPLES / "sums.session").read_text()


def test_a_failing_test_is_found_and_its_output_seen(page: Page) -> None:
    page.open(SUMS)
    assert page.inner("#headline") == "2 failed, 5 passed, 1 skipped"
    told = page.details()
    assert (
        "panicked at tests/wrong.rs:7:5: assertion `left == right` failed: that is the product"
        in told
    )
    page.search("product")
    assert page.rows() == ["expects_a_product"]
    told = page.details()
    assert "failed, exit code 101" in told
    assert "2 + 3 – or 2 × 3?\nabout to fail\n" in told
    assert page.inner("#found") == "1 of 8 shown"
    assert page.evaluate("location.hash") == "#sums%3A%3Awrong/expects_a_product"


def test_an_address_leads_to_its_test_alone(page: Page) -> None:
    events = [
        started(0, "a::t", 0),
        finished(1, "a::t", status(0, 1)),
        started(2, "t", 0),
        finished(3, "t", status(2, 1)),
    ]
    page.open(session_of(events[:2] + [with_binary("alpha::a", one) for one in events[2:]]))
    page.evaluate("document.querySelectorAll('.row')[1].click()")
    address = page.evaluate("location.hash")
    page.click(".back")
    page.evaluate(f"location.hash = '{address}'")
    page.browser.wait_until("document.querySelector('#details h2')")
    assert "alpha::a" in page.details()


def test_failures_come_first(page: Page) -> None:
    page.open(SUMS)
    assert page.rows() == [
        "answers_an_error",
        "expects_a_product",
        "tests::adds",
        "tests::none_above_the_range",
        "takes_a_moment",
        "takes_a_second",
        "panics",
        "tests::adds_very_many",
    ]
    page.evaluate("document.getElementById('sort').value = 'slowest'")
    page.evaluate("document.getElementById('sort').dispatchEvent(new Event('change'))")
    assert page.rows()[:2] == ["takes_a_second", "takes_a_moment"]


def test_a_setup_script_that_failed_is_a_failure(page: Page) -> None:
    ended = status(0, 1, exit_code(3), combined=b"")
    page.open(
        session_of(
            [
                *script_events(0, 1, ended),
                started(1, "passes", 0),
                finished(2, "passes", status(1, 1)),
            ]
        )
    )
    assert page.rows() == ["database", "passes"]
    page.browser.press("n", text="n")
    told = page.details().split("\n")
    assert [one for one in told if one][1:5] == ["✕", "database", "Copy link", "setup script"]
    assert "failed, exit code 3" in told
    page.click("[data-state=script]")
    assert page.inner("#found") == "0 of 1 shown"


def test_what_could_do_harm_is_shown(page: Page) -> None:
    page.open(nasty_session())
    page.search("a</script>")
    told = page.details()
    assert "</script><script>alert(1)</script><!--" in told
    assert "&lt; {{data}} é \U0001f980\\xff\\x00" in told
    assert "\x1b" not in told
    assert page.evaluate("document.querySelectorAll('script').length") == 2
    assert page.content(".byte") == "\\xff"


def test_what_could_turn_the_name_of_a_row_is_shown(page: Page) -> None:
    events = [started(0, "t\u202e", 0), finished(1, "t\u202e", status(0, 1))]
    page.open(session_of([with_binary("a\u202eb\0", one) for one in events]))
    assert page.member(".row .name", "title") == "t\\u{202e}"
    page.click("[data-rows=binary]")
    page.focus("#lanes")
    page.browser.press("ArrowRight", 39)
    said = page.content("#said")
    assert said == r"t\u{202e}, a\u{202e}b\x00, passed, 1.0s, a\u{202e}b\x00 0"


def test_attempts_are_shown_in_their_order(page: Page) -> None:
    page.open(nasty_session())
    page.search("flaky")
    headers = "[...document.querySelectorAll('.attempt > header')]"
    titles = page.texts(f"{headers}.map((header) => header.innerText)")
    assert [" ".join(title.split()) for title in titles] == [
        "Attempt 1 of 3 failed, exit code 101 1.0s from 1.0s slot 1 Copy link",
        "Attempt 2 of 3 passed 1.0s from 6.0s slot 3 Copy link",
    ]
    page.search("hangs")
    assert "never ended\nfrom 1.5s, without 2.0s of pause" in page.details()


def test_a_test_that_fails_though_it_passed_says_why(page: Page) -> None:
    first, second = status(0, 1, exit_code(), 1, 2), status(2, 1, "pass", 2, 2)
    page.open(
        session_of(
            [
                started(0, "t", 0),
                failed(1, "t", first),
                retried(2, "t", 2, 2, 0),
                finished(3, "t", first, second, flaky="fail"),
            ]
        )
    )
    why = page.inner(".why")
    assert why == "it passed at a later attempt, which counts as a failure"


def test_a_search_in_outputs(page: Page) -> None:
    page.open(nasty_session())
    page.click("#in-outputs")
    page.search("ready")
    assert page.rows() == ["flaky", "database"]
    assert page.content("pre mark") == "ready"


def test_the_keyboard_goes_everywhere(page: Page) -> None:
    page.open(SUMS)
    page.browser.press("n", text="n")
    assert "answers_an_error" in page.inner("#details h2")
    page.focus("#list")
    page.browser.press("ArrowDown", 40)
    row = page.evaluate("document.getElementById('list').getAttribute('aria-activedescendant')")
    assert page.content(f"#{row} .name") == "expects_a_product"
    page.browser.press("Enter", 13, "\r")
    assert page.evaluate("document.activeElement.id") == "details"
    page.browser.press("Escape", 27)
    assert page.evaluate("document.activeElement.id") == "list"
    page.browser.press("Escape", 27)
    assert "Slowest tests" in page.details()
    page.focus("#lanes")
    page.browser.press("ArrowRight", 39)
    said = page.content("#said")
    assert said.strip() == "tests::adds, sums, passed, 7µs, slot 0"


def test_a_key_that_is_held(page: Page) -> None:
    page.open(SUMS)
    # The browser complains of an address that changes so often.
    page.evaluate(
        """for (let times = 0; times < 400; times++) {
            const key = times % 2 ? "ArrowUp" : "ArrowDown";
            const pressed = new KeyboardEvent("keydown", { key, bubbles: true });
            document.getElementById("list").dispatchEvent(pressed);
        }"""
    )
    page.browser.wait_until("location.hash === '#sums%3A%3Awrong/answers_an_error'")


def test_a_box_that_is_ticked_keeps_no_keys(page: Page) -> None:
    page.open(SUMS)
    page.focus("#in-outputs")
    page.browser.press("n", text="n")
    page.browser.wait_until("document.querySelector('#details h2')")
    assert "answers_an_error" in page.inner("#details h2")


def test_a_click_on_a_slice_shows_its_test(page: Page) -> None:
    page.open((EXAMPLES / "pause_and_retry.session").read_text())
    box = page.box("#canvas")
    second_row = box["top"] + 22 + 24 * 1.5
    # It is that of slot 1, on which t2 runs from the first to the third second of eleven.
    page.browser.click(box["width"] * 0.2, second_row)
    page.browser.wait_until("document.querySelector('#details h2')")
    assert "t2" in page.inner("#details h2")
    page.browser.press("Escape", 27)
    # In the pause there is nothing to click on.
    page.browser.click(box["width"] * 0.42, second_row)
    assert "Slowest tests" in page.details()


def test_the_tip_of_a_very_long_name_is_small(page: Page) -> None:
    page.open(session_of([started(0, "x" * 5000, 0), finished(1, "x" * 5000, status(0, 1))]))
    page.browser.ask("Input.dispatchMouseEvent", type="mouseMoved", x=700, y=160)
    page.browser.wait_until("!document.getElementById('tip').hidden")
    assert page.number("document.getElementById('tip').offsetHeight") < 120
    assert page.evaluate("document.documentElement.scrollHeight <= innerHeight")


@pytest.mark.parametrize("wide", [1400, 400])
def test_very_long_names_take_some_lines_of_the_overview(page: Page, wide: int) -> None:
    name = "x" * 5000
    events = [
        started(0, f"0{name}", 0),
        finished(1, f"0{name}", status(0, 1, exit_code())),
        started(1, f"1{name}", 0),
        finished(2, f"1{name}", status(1, 1)),
    ]
    begun = run_started(profile=f"p{name}", cli_args=["cargo", name])
    page.open(session_of([begun, *(with_binary(name, one) for one in events)]), wide=wide)
    for place in (".item", "tr", ".about dd", ".facts"):
        heights = f"[...document.querySelectorAll('{place}')].map((one) => one.offsetHeight)"
        assert page.number(f"Math.max(...{heights})") < 200, place
    assert page.fits(wide)
    assert len(page.member(".item .name", "title")) > 5000
    assert len(page.member(".facts [title^=profile]", "title")) > 5000


def test_a_slice_has_an_edge(page: Page) -> None:
    page.open(SUMS)
    found = page.texts(
        """(() => {
            const canvas = document.getElementById("canvas"), found = new Set();
            const context = canvas.getContext("2d");
            const { data } = context.getImageData(0, 0, canvas.width, canvas.height);
            for (let at = 0; at < data.length; at += 4) found.add(data.slice(at, at + 3).join());
            return [...found];
        })()"""
    )
    # The edge and the slice of tests that passed.
    for colour in ("77,142,111", "188,220,203"):
        assert colour in found


def test_an_arrow_within_the_first_row_is_whole(page: Page) -> None:
    failing = status(0, 1, exit_code(), 1, 2)
    page.open(
        session_of(
            [
                started(0, "flaky", 0),
                failed(1, "flaky", failing),
                retried(2, "flaky", 2, 2, 0),
                finished(3, "flaky", failing, status(2, 1, "pass", 2, 2)),
            ]
        )
    )
    # Midway between both attempts nothing but the arrow is drawn below the axis.
    assert drawn_columns(page, 22, 50) == 50


def test_arrows_of_very_many_retries_are_drawn_where_few_are_in_sight(page: Page) -> None:
    events = []
    for number in range(500):
        first = status(number, 0.1, exit_code(), 1, 2)
        second = status(number + 0.8, 0.1, "pass", 2, 2)
        events += [
            started(number, f"t{number}", 0),
            failed(number + 0.1, f"t{number}", first),
            retried(number + 0.8, f"t{number}", 2, 2, 0),
            finished(number + 0.9, f"t{number}", first, second),
        ]
    page.open(session_of(events))
    for _ in range(5):
        page.click("[data-zoom=in]")
    page.evaluate(NEXT_FRAME)
    # Below the only row there are lines of the axis in a few columns, and arrows.
    assert drawn_columns(page, 46, 500) > 250


def drawn_columns(page: Page, top: int, wide: int) -> float:
    """Count the columns in which something is drawn below a height.

    They are so many from the middle of the timeline on.
    """
    return page.number(
        f"""(() => {{
            const canvas = document.getElementById("canvas"), columns = new Set();
            const context = canvas.getContext("2d"), left = Math.round(canvas.width / 2);
            const {{ data }} = context.getImageData(left, {top}, {wide}, canvas.height - {top});
            data.forEach((part, at) => {{ if (part) columns.add(Math.floor(at / 4) % {wide}); }});
            return columns.size;
        }})()"""
    )


def test_a_long_output_is_drawn_when_it_is_asked_for(page: Page) -> None:
    page.open(
        session_of(
            [
                started(0, "long", 0),
                finished(1, "long", status(0, 1, stdout=b"a" * 30_000 + b"b" * 30_000)),
            ]
        )
    )
    page.search("long")
    assert page.inner("pre button") == "Show 20,000 characters more"
    assert "a" * 20_001 not in page.content("pre")
    page.click("pre button")
    assert page.content("pre") == "a" * 30_000 + "b" * 30_000


def test_light_and_dark(page: Page) -> None:
    page.open(SUMS)
    assert page.style("body", "backgroundColor") == "rgb(246, 246, 244)"
    page.open(SUMS, dark=True)
    assert page.style("body", "backgroundColor") == "rgb(18, 21, 24)"


def test_what_is_chosen_is_seen_in_forced_colours(page: Page) -> None:
    page.open(SUMS)
    page.browser.ask(
        "Emulation.setEmulatedMedia", features=[{"name": "forced-colors", "value": "active"}]
    )
    page.click(".row")
    assert page.style(".row[aria-selected=true]", "outlineStyle") == "solid"
    assert page.style(".row[aria-selected=false]", "outlineStyle") == "none"
    assert page.style("[data-state=failed]", "borderTopWidth") == "2px"


def test_a_narrow_window_shows_one_thing_at_a_time(page: Page) -> None:
    page.open(SUMS, wide=380, high=800)
    assert page.fits(380)
    page.click(".row")
    assert page.style("#tests", "display") == "none"
    assert page.fits(380)
    page.click(".back")
    assert page.style("#tests", "display") == "flex"


def test_a_narrow_window_shows_the_attempt_that_was_clicked_on(page: Page) -> None:
    first = status(0, 4, exit_code(), 1, 2, stdout=b"line\n" * 500)
    second = status(6, 4, "pass", 2, 2, stdout=b"second\n")
    page.open(
        session_of(
            [
                started(0, "t", 0),
                failed(4, "t", first),
                retried(6, "t", 2, 2, 0),
                finished(10, "t", first, second),
            ]
        ),
        wide=400,
        high=500,
    )
    box = page.box("#canvas")
    page.browser.click(box["right"] - 60, box["top"] + 32)
    page.browser.wait_until("document.getElementById('attempt-1')")
    assert 0 < round(page.box("#attempt-1")["bottom"]) <= 500


def test_the_order_of_tests_stands_in_their_column(page: Page) -> None:
    page.open(SUMS, wide=780)
    assert page.box("#sort")["right"] <= page.box("#tests")["right"]


def test_a_low_window_has_room_for_tests(page: Page) -> None:
    page.open(many_tests(), wide=844, high=390)
    assert page.number("document.getElementById('list').clientHeight") > 140
    page.evaluate("document.getElementById('found').scrollIntoView()")
    assert page.box("#found")["bottom"] <= 390


def test_many_tests(page: Page) -> None:
    page.open(many_tests())
    assert (page.folder / "page.html").stat().st_size < 2_500_000
    assert page.inner("#headline") == "10 failed, 9,990 passed"
    assert page.number("document.querySelectorAll('*').length") < 1000
    page.search("test_1999")
    assert page.rows() == ["test_1999"]
    assert "the last words of test 1999" in page.details()


def test_on_paper(page: Page) -> None:
    page.open(many_tests(), dark=True)
    page.evaluate(
        """const { dataset } = document.documentElement, themes = [];
        for (const name of ["beforeprint", "afterprint"]) {
            addEventListener(name, () => themes.push(dataset.theme));
        }"""
    )
    printed = base64.b64decode(str(page.browser.ask("Page.printToPDF")["data"]))
    # The list has a row of some pixels for each test, of which paper has those in sight.
    assert len(re.findall(rb"/Type ?/Page\b", printed)) < 10
    assert page.evaluate("themes") == ["light", "dark"]


def test_an_output_is_whole_on_paper(paper: Page) -> None:
    page = paper
    page.open(
        session_of([started(0, "long", 0), finished(1, "long", status(0, 1, stdout=b"a\n" * 1000))])
    )
    page.search("long")
    is_whole = "((pre) => pre.clientHeight === pre.scrollHeight)(document.querySelector('pre'))"
    assert not page.evaluate(is_whole)
    page.browser.ask("Emulation.setEmulatedMedia", media="print")

    assert page.evaluate(is_whole)


def test_a_run_without_tests(page: Page) -> None:
    page.open(session_of([run_started()]))
    assert page.inner("#headline") == "No test ran"
    page.focus("#lanes")
    page.browser.press("ArrowRight", 39)
    page.browser.press("n", text="n")
