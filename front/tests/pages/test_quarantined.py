"""A test in quarantine says so on the page, in Chromium."""

from __future__ import annotations

import datetime

import pytest

from rezovamy_runs.page import document
from rezovamy_runs.quarantine import Entry, Quarantine
from tests.made import bundle_of, exit_code, finished, session_of, started, status
from tests.opened_page import READY, Page

pytestmark = pytest.mark.browser

EXCUSED = Quarantine(
    entries=(
        Entry(1, "alpha bad", datetime.date(2027, 1, 31), "needs a faster machine"),
        Entry(2, "other*"),
    )
)


@pytest.mark.parametrize(
    ("name", "told"),
    [
        ("bad", "in quarantine until 2027-01-31: needs a faster machine"),
        ("others", "in quarantine"),
        ("good", None),
    ],
)
def test_a_test_says_that_it_is_in_quarantine(page: Page, name: str, told: str | None) -> None:
    failing = status(0, 1, exit_code())
    session = session_of([started(0, name), finished(1, name, failing)])
    bundle, path = page.folder / "run.bundle", page.folder / "page.html"
    bundle.write_bytes(bundle_of(session))
    path.write_text(document.page_of(bundle, excused=EXCUSED))
    page.address = path.as_uri()
    page.browser.events.clear()
    page.browser.open(page.address)
    page.browser.wait_until(READY)
    assert page.inner(".item .took") == ("in quarantine, 1.0s" if told else "1.0s")
    page.search(name)
    facts = page.texts("[...document.querySelectorAll('.under span')].map((one) => one.innerText)")
    assert facts == ["alpha", "failed", "1.0s", *([told] if told else [])]
