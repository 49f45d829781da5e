"""A page of a run in Chromium, with what tests ask of it."""

from __future__ import annotations

import dataclasses
import pathlib

from rezovamy_runs.page import document
from tests.browser import Browser, member
from tests.made import bundle_of

READY = "document.documentElement.dataset.ready === 'yes'"
NAMES = "[...document.querySelectorAll('.row .name')].map((name) => name.textContent)"


def written_page(session: str, folder: pathlib.Path) -> str:
    """Write the page of a session, and return its address."""
    bundle, path = folder / "run.bundle", folder / "page.html"
    bundle.write_bytes(bundle_of(session))
    path.write_text(document.page_of(bundle))
    return path.resolve().as_uri()


@dataclasses.dataclass
class Page:
    """A page of a run in a browser, which complains of nothing and asks for nothing but itself."""

    browser: Browser
    folder: pathlib.Path
    address: str = ""

    def open(
        self,
        session: str,
        wide: int = 1400,
        high: int = 900,
        dark: bool = False,
        fragment: str = "",
    ) -> None:
        """Open the page of a session in a window of this size, at a fragment of its address."""
        self.open_at(written_page(session, self.folder), wide, high, dark, fragment)

    def open_at(
        self,
        address: str,
        wide: int = 1400,
        high: int = 900,
        dark: bool = False,
        fragment: str = "",
    ) -> None:
        """Open the page at an address, as `open` does."""
        self.address = address
        self.browser.events.clear()
        self.browser.open(self.address + fragment, wide, high, dark)
        self.browser.wait_until(READY)

    def evaluate(self, code: str) -> object:
        """Return the value of an expression in the page."""
        return self.browser.evaluate(code)

    def number(self, code: str) -> float:
        """Return the number that an expression is."""
        value = self.evaluate(code)
        assert isinstance(value, (int, float))
        return value

    def count_processor_time(self) -> None:
        """Count the processor's time of pages, which other processes don't lengthen."""
        self.browser.ask("Performance.enable", timeDomain="threadTicks")

    def processor_time(self) -> float:
        """Return the seconds that the page has taken of a processor since it was opened."""
        metrics = member(self.browser.ask("Performance.getMetrics"), "metrics")
        assert isinstance(metrics, list)
        [found] = [one["value"] for one in metrics if one["name"] == "TaskDuration"]
        self.browser.ask("Performance.disable")
        return float(found)

    def texts(self, code: str) -> list[str]:
        """Return the texts that an expression is."""
        value = self.evaluate(code)
        assert isinstance(value, list)
        return [str(text) for text in value]

    def member(self, selector: str, name: str) -> str:
        """Return a member of the first element that a selector finds, which has to be a text."""
        value = self.evaluate(f"document.querySelector('{selector}').{name}")
        assert isinstance(value, str)
        return value

    def inner(self, selector: str) -> str:
        """Return what is seen of the text of an element."""
        return self.member(selector, "innerText")

    def content(self, selector: str) -> str:
        """Return the text of an element."""
        return self.member(selector, "textContent")

    def style(self, selector: str, name: str) -> object:
        """Return a style of an element, as it is drawn."""
        return self.evaluate(f"getComputedStyle(document.querySelector('{selector}')).{name}")

    def fits(self, wide: int) -> bool:
        """Return whether the page is no wider than so many pixels."""
        return self.number("document.documentElement.scrollWidth") <= wide

    def rows(self) -> list[str]:
        """Return the names in the rows of the list that are there."""
        return self.texts(NAMES)

    def details(self) -> str:
        """Return what is seen of the details of a test or a run."""
        return self.inner("#details")

    def click(self, selector: str) -> None:
        """Click on an element."""
        self.evaluate(f"document.querySelector('{selector}').click()")

    def focus(self, selector: str) -> None:
        """Give the keyboard to an element."""
        self.evaluate(f"document.querySelector('{selector}').focus()")

    def box(self, selector: str) -> dict[str, float]:
        """Return the sides of an element."""
        code = f"document.querySelector('{selector}').getBoundingClientRect().toJSON()"
        value = self.evaluate(code)
        assert isinstance(value, dict)
        return {side: float(number) for side, number in value.items()}

    def search(self, text: str) -> None:
        """Seek a text as somebody who types it, and go to the first test that is found."""
        self.browser.press("/", 191, "/")
        self.browser.write(text)
        self.browser.press("Enter", 13, "\r")
