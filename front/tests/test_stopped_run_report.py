"""The report of a run that was stopped: of the tests that ended, and an error for all others."""

from __future__ import annotations

import json
import pathlib
import xml.etree.ElementTree

import pytest

from rezovamy_runs import recorder
from rezovamy_runs.commands import junit
from rezovamy_runs.json_values import JsonObject
from rezovamy_runs.streams import session_json
from tests import made

pytestmark = pytest.mark.program

FAILED = made.status(1, 2, made.exit_code(7), stdout=b"no\n")
STOPPED = [
    made.run_started(),
    made.skipped(0, "t3"),
    made.started(1, "t0"),
    made.finished(2, "t0", made.status(1, 1)),
    made.started(1, "bad"),
    made.finished(3, "bad", FAILED),
    made.started(4, "t1"),
]


LISTED = ["t0", "t1", "t2", "t3", "bad"]


def text_of(tmp_path: pathlib.Path, *events: object) -> list[str]:
    """Return the XML of the runs of a bundle with these events."""
    path = tmp_path / "one.bundle"
    head: JsonObject = {
        **session_json.HEAD,
        **made.HEAD,
        "test-list": {"suites": {"alpha": LISTED}},
    }
    session = "".join(json.dumps(one) + "\n" for one in (head, *events))
    recorder.run(["record", path], input=session.encode())
    return [document.text for document in junit.documents_of([path])]


def test_a_stopped_run(tmp_path: pathlib.Path) -> None:
    (text,) = text_of(tmp_path, *STOPPED)
    root = xml.etree.ElementTree.fromstring(text)
    found = {
        case.get("name"): [(inner.tag, inner.get("message")) for inner in case]
        for case in root.iter("testcase")
    }
    broken = "; the run was broken off (it was stopped before its end)"
    assert found == {
        "t3": [("skipped", "ignored")],
        "t0": [],
        "bad": [("failure", "exit code 7"), ("system-out", None)],
        "t1": [("error", f"the test started, and no event says how it ended{broken}")],
        "t2": [("error", f"the test was announced, and never started{broken}")],
        "(run)": [("error", broken.removeprefix("; "))],
    }


def test_a_log_without_events(tmp_path: pathlib.Path) -> None:
    assert text_of(tmp_path) == []
