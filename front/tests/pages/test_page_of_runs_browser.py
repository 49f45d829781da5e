"""The page of many runs, in Chromium and in Firefox."""

from __future__ import annotations

import pytest

from rezovamy_runs.store.notes import RunNotes
from tests import histories, made
from tests.browser import NEXT_FRAME, Browser
from tests.firefox import Firefox
from tests.front_end import FrontEnd
from tests.histories import Folder, id_of
from tests.opened_page import READY, Page
from tests.page_sessions import with_binary

pytestmark = pytest.mark.browser

ROWS = "[...document.querySelectorAll('#names .row .name')].map((one) => one.textContent)"
FOUND = "document.getElementById('found').textContent"
HEADING = "document.querySelector('#details h2')?.innerText.trim() ?? ''"


@pytest.fixture
def address(front_end: FrontEnd) -> str:
    """Return the address of a page of four runs, of which the second one has a page."""
    folder = Folder(front_end.runs)
    main, other = RunNotes(commit="a" * 12, branch="main"), RunNotes(commit="b", branch="other")
    folder.add(1, "..F", main)
    folder.add(2, ".FF", main)
    folder.add(3, ".~.", other)
    folder.add(90_000, "...", other)
    front_end.output("page", id_of(2))
    front_end.output("history", "--page")
    return (folder.path / "history.html").as_uri()


@pytest.fixture
def opened(page: Page, address: str) -> Page:
    """Return the page in a window."""
    page.address = address
    page.browser.events.clear()
    page.browser.open(address)
    page.browser.wait_until(READY)
    return page


def press(page: Page, *keys: str) -> None:
    """Press keys in the grid."""
    page.focus("#grid")
    for key in keys:
        page.browser.press(key)


def test_the_least_trusted_come_first(opened: Page) -> None:
    assert opened.texts(ROWS) == ["t1", "t2", "t0"]
    assert opened.content("#headline") == "3 tests over 4 runs"
    assert opened.evaluate(FOUND) == "3 tests, 4 runs"


@pytest.mark.parametrize(
    ("fragment", "rows", "found"),
    [
        ("#?find=t2", ["t2"], "1 of 3 tests, 4 runs"),
        ("#?branch=main", ["t1", "t2", "t0"], "3 tests, 2 of 4 runs"),
        ("#?days=1", ["t1", "t2", "t0"], "3 tests, 1 of 4 runs"),
        ("#?kinds=always-passes", ["t0"], "1 of 3 tests, 4 runs"),
        ("#?sort=name", ["t0", "t1", "t2"], "3 tests, 4 runs"),
        ("#?find=none", [], "No test is found. Try fewer letters, or more kinds."),
        ("#?branch=gone&sort=gone&kinds=gone", ["t1", "t2", "t0"], "3 tests, 4 runs"),
    ],
)
def test_an_address_filters(opened: Page, fragment: str, rows: list[str], found: str) -> None:
    opened.evaluate(f"location.hash = '{fragment}'")
    opened.browser.wait_until(f"{FOUND} === '{found}'")
    opened.evaluate(NEXT_FRAME)
    assert opened.texts(ROWS) == rows


def test_a_package_filters(page: Page, front_end: FrontEnd) -> None:
    folder = Folder(front_end.runs)
    folder.add(1, "..")
    events = [with_binary("beta::it", event) for event in histories.test_events(2, "b0", ".")]
    text = made.bundle(made.run_started(2), *events, ended=made.completed(1, 0), run_id=id_of(2))
    (folder.path / f"{id_of(2)}.bundle").write_bytes(text)
    front_end.output("history", "--page")
    page.address = (folder.path / "history.html").as_uri()
    page.browser.events.clear()
    page.browser.open(f"{page.address}#?package=beta")
    page.browser.wait_until(READY)
    assert page.texts(ROWS) == ["b0"]
    assert page.evaluate(FOUND) == "1 of 3 tests, 2 runs"


def test_a_test_has_a_line_of_its_times(opened: Page) -> None:
    """From run to run, where it passed."""
    opened.evaluate("location.hash = '#alpha/t0'")
    opened.browser.wait_until("document.querySelector('.trend')")
    told = opened.member(".trend", "getAttribute('aria-label')")
    assert told == "Times from run to run. It takes 1.0s usually, from 1.0s to 1.0s; last 1.0s."


def test_keys_go_through_the_grid(opened: Page) -> None:
    press(opened, "ArrowDown", "ArrowRight", "n")
    assert opened.content("#said").startswith("failed, 1.0s")
    assert opened.evaluate(HEADING) == "↻\nt1"
    opened.browser.wait_until(f"location.hash === '#alpha/t1/{id_of(2)}'")
    assert opened.evaluate("document.activeElement.id") == "grid"
    assert opened.evaluate("document.querySelector('[aria-selected=true]').id") == opened.member(
        "#grid", "getAttribute('aria-activedescendant')"
    )
    press(opened, "ArrowLeft")
    assert opened.content("#said").startswith("passed, 1.0s")


def test_a_cell_leads_to_the_page_of_its_run(opened: Page) -> None:
    opened.evaluate(f"location.hash = '#alpha/t1/{id_of(2)}'")
    opened.browser.wait_until("document.querySelector('.attempt a')")
    link = opened.member(".attempt a", "href")
    assert link == f"{opened.address.rpartition('/')[0]}/{id_of(2)}.html#alpha/t1"


def test_a_cell_without_a_page_shows_the_command(opened: Page) -> None:
    opened.evaluate(f"location.hash = '#alpha/t2/{id_of(1)}'")
    opened.browser.wait_until("document.querySelector('.attempt .command')")
    assert opened.content(".attempt .command code") == f"rezovamy-runs page {id_of(1)}"
    assert opened.evaluate("document.querySelectorAll('.attempt a').length") == 0


def test_a_missing_test_is_said(opened: Page) -> None:
    opened.evaluate("location.hash = '#alpha/gone'")
    opened.browser.wait_until("document.querySelector('.warning')")


def test_whatever_can_be_used_has_a_name(opened: Page) -> None:
    nodes = opened.browser.ask("Accessibility.getFullAXTree")["nodes"]
    assert isinstance(nodes, list)
    told = [
        (node["role"]["value"], node.get("name", {}).get("value", ""))
        for node in nodes
        if not node["ignored"]
    ]
    used = ("button", "link", "combobox", "searchbox", "listbox", "option", "region", "heading")
    assert [role for role, name in told if role in used and not name.strip()] == []
    assert ("option", "failed and passed at one commit t1 alpha") in told


@pytest.mark.parametrize("dark", [False, True])
def test_a_narrow_window_fits(page: Page, address: str, dark: bool) -> None:
    page.address = address
    page.browser.events.clear()
    page.browser.open(address, wide=420, dark=dark)
    page.browser.wait_until(READY)
    assert page.fits(420)
    assert page.texts(ROWS) == ["t1", "t2", "t0"]


@pytest.mark.firefox
def test_firefox_opens_a_cell(firefox_browser: Firefox, address: str) -> None:
    firefox_browser.open(f"{address}#alpha/t1/{id_of(2)}")
    firefox_browser.wait_until(READY)
    assert firefox_browser.evaluate(HEADING) == "↻\nt1"
    assert firefox_browser.evaluate(ROWS) == ["t1", "t2", "t0"]


def test_the_page_is_printed(opened: Page, chromium: Browser) -> None:
    assert len(str(chromium.ask("Page.printToPDF")["data"])) > 1000
    opened.evaluate(NEXT_FRAME)
    assert opened.evaluate("document.documentElement.dataset.theme") == "light"


def test_a_click_on_a_cell_opens_the_page_of_its_run(chromium: Browser, address: str) -> None:
    chromium.events.clear()
    chromium.open(f"{address}#alpha/t1/{id_of(2)}")
    chromium.wait_until(READY)
    # The cell of the second run in the first row, behind the name and the line of times.
    sides = [
        chromium.evaluate(f"document.getElementById('{one}').{side}")
        for one, side in [
            ("cells", "getBoundingClientRect().left"),
            ("names", "offsetWidth"),
            ("cells", "getBoundingClientRect().top"),
        ]
    ]
    left, wide, top = (float(str(side)) for side in sides)
    chromium.click(left + wide + 72 + 14 + 7, top + 62 + 11)
    chromium.wait_until(f"location.href.endsWith('/{id_of(2)}.html#alpha/t1')")
    assert chromium.complaints() == []
