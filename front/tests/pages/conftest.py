"""Browsers for tests of pages."""

from __future__ import annotations

import pathlib
from collections.abc import Iterator

import pytest

from tests import browser, firefox
from tests.browser import Browser
from tests.firefox import Firefox
from tests.opened_page import Page


@pytest.fixture(scope="session")
def chromium() -> Iterator[Browser]:
    """Yield a Chromium for all tests here."""
    program = browser.find()
    assert program is not None
    with browser.opened(program) as opened:
        yield opened


@pytest.fixture
def page(chromium: Browser, tmp_path: pathlib.Path) -> Iterator[Page]:
    """Yield a page that is opened with a session."""
    made = Page(chromium, tmp_path)
    yield made
    assert chromium.complaints() == []
    assert {request.partition("#")[0] for request in chromium.requests()} == {made.address}


@pytest.fixture
def paper(page: Page) -> Iterator[Page]:
    """Yield a page that can be seen as on paper; the next one is seen on a screen again."""
    yield page
    page.browser.ask("Emulation.setEmulatedMedia", media="")


@pytest.fixture(scope="session")
def firefox_browser() -> Iterator[Firefox]:
    """Yield a Firefox for all tests here."""
    program = firefox.find()
    assert program is not None
    with firefox.opened(program) as opened:
        yield opened
