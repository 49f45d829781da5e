"""What a screen reader, the keyboard and paper have of a page, in Chromium."""

from __future__ import annotations

from collections.abc import Iterator

import pytest

from tests import EXAMPLES
from tests.browser import member
from tests.made import exit_code, finished, session_of, started, status
from tests.opened_page import Page

pytestmark = pytest.mark.browser

SUMS = (EXAMPLES / "sums.session").read_text()
TEST = "#sums%3A%3Awrong/expects_a_product"
CONTROLS = ("button", "link", "checkbox", "combobox", "searchbox", "listbox", "option")
NAMED = (*CONTROLS, "application", "region", "group", "img", "image", "heading")


def nodes(page: Page) -> Iterator[tuple[str, str]]:
    """Yield the role and the name of each node that a screen reader meets, in its order."""
    found = page.browser.ask("Accessibility.getFullAXTree")["nodes"]
    assert isinstance(found, list)
    by_id = {member(node, "nodeId"): node for node in found}
    waiting = [found[0]]
    while waiting:
        node = waiting.pop()
        if not member(node, "ignored"):
            yield str(member(node, "role", "value")), str(member(node, "name", "value") or "")
        children = member(node, "childIds")
        assert isinstance(children, list)
        waiting += [by_id[child] for child in reversed(children) if child in by_id]


def tab_stops(page: Page, most: int) -> list[str]:
    """Return what the tab key reaches, one after the other, until it leaves the page."""
    found: list[str] = []
    told = "(({ id, textContent, tagName }) => tagName === 'BODY' ? '' : id || textContent.trim())"
    for _ in range(most):
        page.browser.press("Tab", 9)
        reached = str(page.evaluate(f"{told}(document.activeElement)"))
        if not reached:
            break
        found.append(reached)
    return found


@pytest.mark.parametrize("wide", [1400, 420])
@pytest.mark.parametrize("fragment", ["", TEST])
def test_whatever_can_be_used_has_a_name(page: Page, wide: int, fragment: str) -> None:
    page.open(SUMS, wide=wide, fragment=fragment)
    met = list(nodes(page))
    assert [role for role, name in met if role in NAMED and not name.strip()] == []
    assert "button" in {role for role, _ in met}


def test_a_screen_reader_meets_the_headings_in_their_order(page: Page) -> None:
    page.open(SUMS)
    assert [name for role, name in nodes(page) if role == "heading"] == [
        "2 failed, 5 passed, 1 skipped",
        "Timeline",
        "2 failed",
        "Slowest tests",
        "Binaries",
        "3 slots",
        "Critical path",
        "This run",
    ]


def test_a_row_of_the_list_says_how_its_test_ended(page: Page) -> None:
    page.open(SUMS)
    names = [name for role, name in nodes(page) if role == "option"]
    # The first four are orders of the list.
    assert names[4] == "failed answers_an_error sums::wrong 10µs"
    assert len(names) == 4 + 8


def test_the_tab_key_goes_through_the_page_in_its_order(page: Page) -> None:
    page.open(SUMS, fragment=TEST)
    assert tab_stops(page, 40) == [
        "Skip to the tests",
        "theme",
        "keys",
        "By slot",
        "By binary",
        "−",
        "+",
        "Whole run",
        "Copy link",
        "lanes",
        "search",
        "in-outputs",
        "sort",
        "✕2failed",
        "✓5passed",
        "–1skipped",
        "list",
        "Copy link",
        "← Tests← Overview",
        "Copy link",
        "Copy",
        "Output267 B, 8 linesCopy",
        "Copy",
        page.content("pre").strip(),
    ]


def test_closed_groups_are_open_on_paper(page: Page) -> None:
    events = []
    for number in range(20):
        failing = status(number, 1, exit_code())
        events += [started(number, f"t{number}"), finished(number + 1, f"t{number}", failing)]
    page.open(session_of(events))
    page.evaluate(
        """const open_groups = () => document.querySelectorAll(".cause[open]").length;
        const counts = [open_groups()];
        for (const name of ["beforeprint", "afterprint"]) {
            addEventListener(name, () => counts.push(open_groups()));
        }"""
    )
    page.browser.ask("Page.printToPDF")
    assert page.evaluate("counts") == [0, 1, 0]
