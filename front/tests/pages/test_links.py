"""Addresses that lead into a page, in Chromium and in Firefox, and the buttons that copy them."""

from __future__ import annotations

import pathlib
from typing import Protocol

import pytest

from tests import EXAMPLES
from tests.browser import NEXT_FRAME, Browser
from tests.firefox import Firefox
from tests.made import exit_code, failed, finished, retried, session_of, started, status
from tests.opened_page import READY, Page, written_page

pytestmark = pytest.mark.browser

SUMS = (EXAMPLES / "sums.session").read_text()
HEADING = "document.querySelector('#details h2')?.innerText.trim() ?? ''"
CURRENT = "document.querySelector('.attempt[aria-current] h3')?.innerText ?? ''"
FOUND = "document.getElementById('found').innerText"
# An address with what it leads to: an expression and its value.
LINKS = [
    ("#alpha/flaky", HEADING, "✕\nflaky"),
    ("#alpha/flaky/1", CURRENT, "Attempt 1 of 2"),
    ("#alpha/flaky/2", CURRENT, "Attempt 2 of 2"),
    ("#alpha/flaky/9", CURRENT, ""),
    ("#alpha/a%3A%3Ab%20c", HEADING, "✓\na::b c"),
    ("#?states=passed", FOUND, "1 of 2 shown"),
    ("#?find=fla", FOUND, "1 of 2 shown"),
    ("#?find=second%20words&outputs=yes", FOUND, "1 of 2 shown"),
    ("#?states=passed+failed", FOUND, "All 2 shown"),
    ("#alpha/flaky?states=passed", HEADING, "✕\nflaky"),
    ("#?sort=slowest", "document.getElementById('sort').value", "slowest"),
    ("#?sort=wrong", "document.getElementById('sort').value", "failures"),
    (
        "#?from=1&to=3",
        "document.getElementById('selected-sum').textContent",
        "1.0s to 3.0s, 2.0s: 2 tests ran, 1 failed; 3.0s of tests, 75% of 2 slots",
    ),
    ("#tests", HEADING, ""),
    ("#alpha/%E0", HEADING, ""),
]


class AnyBrowser(Protocol):
    """What both browsers can do."""

    def open(self, address: str) -> None:
        """Open a page."""

    def evaluate(self, code: str) -> object:
        """Return the value of an expression in the page."""

    def wait_until(self, code: str) -> None:
        """Wait until an expression in the page is true."""


def two_tests() -> str:
    """Return a run of a test that fails twice and one that passes."""
    first, second = status(0, 1, exit_code(), 1, 2), status(2, 1, exit_code(), 2, 2)
    return session_of(
        [
            started(0, "flaky", 0),
            started(0, "a::b c", 1),
            failed(1, "flaky", first),
            retried(2, "flaky", 2, 2, 0),
            finished(3, "flaky", first, second),
            finished(4, "a::b c", status(0, 4, stdout=b"second words\n")),
        ]
    )


def lead(browser: AnyBrowser, folder: pathlib.Path) -> None:
    """Open each of the links, and look where it leads."""
    address = written_page(two_tests(), folder)
    for fragment, code, expected in LINKS:
        browser.open(address + fragment)
        browser.wait_until(READY)
        assert browser.evaluate(code) == expected, fragment


def test_links_lead_somewhere_in_chromium(chromium: Browser, tmp_path: pathlib.Path) -> None:
    lead(chromium, tmp_path)
    assert chromium.complaints() == []


@pytest.mark.firefox
def test_links_lead_somewhere_in_firefox(firefox_browser: Firefox, tmp_path: pathlib.Path) -> None:
    lead(firefox_browser, tmp_path)


def test_a_link_leads_on_from_an_open_page(page: Page) -> None:
    page.open(two_tests(), fragment="#alpha/flaky")
    page.evaluate("location.hash = '#alpha/a%3A%3Ab%20c'")
    page.browser.wait_until(f"{HEADING}.includes('a::b c')")
    page.evaluate("location.hash = ''")
    page.browser.wait_until(f"{HEADING} === ''")


def test_an_opened_link_stays_in_the_address(page: Page) -> None:
    page.open(two_tests(), fragment="#alpha/flaky/2")
    assert page.evaluate("location.hash") == "#alpha/flaky/2"


@pytest.mark.parametrize("fragment", ["#alpha/gone", "#beta/flaky", "#alpha/%E0"])
def test_a_link_to_a_missing_test_says_so(page: Page, fragment: str) -> None:
    page.open(two_tests(), fragment=fragment)
    warning = "The address leads to a test that isn't in this run. Search for it by name."
    assert page.inner(".warning") == warning
    page.click(".row")
    page.click(".back")
    assert page.evaluate("document.querySelectorAll('.warning').length") == 0


def test_a_link_to_a_stretch_shows_it(page: Page) -> None:
    page.open(two_tests(), fragment="#?from=1&to=3")
    page.evaluate(NEXT_FRAME)
    page.click("#time-link button")
    assert page.evaluate("location.hash") == "#?from=1.000000&to=3.000000"


@pytest.mark.parametrize("stretch", ["from=3&to=1", "from=x&to=2", "from=1", "to=2", "from=1&to=1"])
def test_a_stretch_that_is_none_shows_the_whole_run(page: Page, stretch: str) -> None:
    page.open(two_tests(), fragment=f"#?{stretch}")
    page.click("#time-link button")
    assert page.evaluate("location.hash") == "#?from=0.000000&to=4.016000"


def pasted(page: Page) -> str:
    """Return what the clipboard has, by way of the search."""
    page.focus("#search")
    page.evaluate("document.getElementById('search').select()")
    page.browser.ask(
        "Input.dispatchKeyEvent", type="keyDown", key="v", modifiers=2, commands=["paste"]
    )
    return page.member("#search", "value")


def press_button(page: Page, selector: str) -> None:
    """Click on a button with the mouse, as browsers ask of whoever copies."""
    box = page.box(selector)
    page.browser.click((box["left"] + box["right"]) / 2, (box["top"] + box["bottom"]) / 2)
    page.browser.wait_until(f"document.querySelector('{selector}').textContent === 'Copied'")


@pytest.mark.parametrize(
    ("button", "fragment"),
    [
        (".test-head .copy", "#alpha/flaky"),
        (".attempt:last-child header .copy", "#alpha/flaky/2"),
        ("#foot .copy", "#?find=flaky&states=failed&sort=name"),
        ("#time-link .copy", "#?from=0.000000&to=4.016000"),
    ],
)
def test_a_button_copies_a_link(page: Page, button: str, fragment: str) -> None:
    page.open(two_tests(), fragment="#alpha/flaky?find=flaky&states=failed&sort=name")
    press_button(page, button)
    assert pasted(page) == page.address + fragment
    assert page.content("#said") == "Copied"
    page.browser.wait_until(f"document.querySelector('{button}').textContent === 'Copy link'")


def test_a_page_without_a_clipboard_copies_too(page: Page) -> None:
    page.open(two_tests(), fragment="#alpha/flaky")
    page.evaluate("Object.defineProperty(navigator, 'clipboard', { value: undefined })")
    press_button(page, ".test-head .copy")
    assert pasted(page) == f"{page.address}#alpha/flaky"


@pytest.mark.firefox
def test_firefox_copies_a_link(firefox_browser: Firefox, tmp_path: pathlib.Path) -> None:
    firefox_browser.open(written_page(two_tests(), tmp_path) + "#alpha/flaky")
    firefox_browser.wait_until(READY)
    firefox_browser.click(".test-head .copy")
    firefox_browser.wait_until(
        "document.querySelector('.test-head .copy').textContent === 'Copied'"
    )


def test_an_output_is_copied_without_harm(page: Page) -> None:
    printed = b"\x1b[31mred\x1b[0m \x07 words\n"
    page.open(
        session_of([started(0, "t", 0), finished(1, "t", status(0, 1, stdout=printed))]),
        fragment="#alpha/t",
    )
    press_button(page, ".output .copy")
    assert pasted(page).strip() == "red \\x07 words"
