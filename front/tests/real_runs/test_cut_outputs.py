"""Outputs of a real test that are too long for a reader of XML, or for a bundle."""

from __future__ import annotations

import json

import pytest

from rezovamy_runs.report.junit_texts import ATTRIBUTE_PART
from tests.real_runs.recorder import Recorder, Written
from tests.real_runs.sessions import Session

pytestmark = [pytest.mark.cargo, pytest.mark.program]

MOST_OUTPUT = 5000


@pytest.fixture(scope="module")
def printed(long_output: Session) -> str:
    """What the test printed: more than is asked for, with its message near the end."""
    (event,) = [event for event in long_output.events if event.kind == "test-finished"]
    text = event.attempts[-1].printed
    assert len(text) > 40_000
    assert "it has a long message" in text[-3000:]
    return text


def text_at(recorder: Recorder, path: str) -> str:
    """Return the text of an element of the XML that was written."""
    found = recorder.xml().findtext(path)
    assert found is not None
    return found


@pytest.mark.parametrize("most", [20_000, 1000])
def test_a_text_that_is_longer_than_xml_may_have(
    recorder: Recorder, long_output: Session, printed: str, most: int
) -> None:
    """Its begin and its end stay, and a note says of how many bytes; a message has a tenth."""
    written = recorder.write_xml(recorder.reports(long_output.text), "--most-text", str(most))
    assert written == Written(0, ("junit.xml",))
    text = text_at(recorder, ".//system-out")
    assert most - 9 <= len(text) <= most
    begin, end = text.split(f"... [of {len(printed)} bytes the middle is left out] ...")
    assert printed.strip().startswith(begin.strip())
    assert printed.strip().endswith(end.strip())
    failure = recorder.xml().find(".//failure")
    assert failure is not None
    message = failure.get("message", "")
    assert "the middle is left out" in message
    assert len(message) <= most // ATTRIBUTE_PART


def test_a_text_below_the_limit_is_whole(
    recorder: Recorder, long_output: Session, printed: str
) -> None:
    recorder.write_xml(recorder.reports(long_output.text))
    assert text_at(recorder, ".//system-out") == printed


def test_an_output_that_is_longer_than_a_bundle_may_have(
    recorder: Recorder, long_output: Session, printed: str
) -> None:
    """Its begin and its end stay, and a note says how many bytes don't."""
    report = json.loads(recorder.reports(long_output.text, "--max-output", str(MOST_OUTPUT)))
    kept: str = report["suites"][0]["cases"][0]["system-out"]
    assert len(kept) <= MOST_OUTPUT
    assert f"... [truncated {len(printed) - MOST_OUTPUT} bytes] ..." in kept
    assert (kept[:99], kept[-99:]) == (printed[:99], printed[-99:])
