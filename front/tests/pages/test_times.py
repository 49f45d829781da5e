"""Times on the page in Chromium: without pauses, and as the terminal tells them."""

from __future__ import annotations

import pytest

from tests import EXAMPLES
from tests.opened_page import Page

pytestmark = pytest.mark.browser

PAUSED = (EXAMPLES / "pause_and_retry.session").read_text()


def test_a_test_that_was_paused_for_three_of_seven_seconds_took_four(page: Page) -> None:
    page.open(PAUSED, fragment="#beta%3A%3Ab/t3")
    header = " ".join(page.inner(".attempt header").split())
    assert header == "Attempt passed 4.0s from 2.0s, without 3.0s of pause slot 0"
    assert "t3 beta::b 4.0s" in page.texts(
        "[...document.querySelectorAll('.row')].map((row) => row.innerText.split(/\\s+/)"
        ".slice(1).join(' '))"
    )


def test_a_pause_is_in_no_attempt_that_was_tried_again(page: Page) -> None:
    page.open(PAUSED, fragment="#alpha%3A%3Aa/t2")
    times = "[...document.querySelectorAll('.attempt .also:nth-child(3)')]"
    assert page.texts(f"{times}.map((one) => one.innerText)") == ["3.0s", "2.0s"]
    assert page.inner(".under").split("\n")[-1] == "5.0s"
