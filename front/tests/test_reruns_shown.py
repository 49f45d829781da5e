"""A run of which something ran again is shown as one run, in all commands alike."""

from __future__ import annotations

import json
import pathlib
import re
from typing import Any

import pytest

from rezovamy_runs.store.notes import Part, RunNotes, Shard
from tests.front_end import FrontEnd, front_end_in
from tests.histories import Folder, id_of

pytestmark = pytest.mark.program

AT = RunNotes(commit="a")
AGAIN = RunNotes(commit="a", part=Part.AGAIN)


@pytest.fixture
def history(tmp_path: pathlib.Path) -> FrontEnd:
    """A run of four tests, and what ran again of it, some time later and twice.

    t0 passes, t1 fails and then passes, t2 fails each time, and t3 passes at the third time.
    """
    front_end = front_end_in(tmp_path)
    folder = Folder(front_end.runs)
    folder.add(1, ".FFF", AT)
    folder.add(2, "-.FF", AGAIN, parent=1, at=100)
    folder.add(3, "--F.", AGAIN, parent=2, at=200)
    return front_end


def page_of(front_end: FrontEnd, *words: str) -> dict[str, Any]:
    """Return what the page of a run knows."""
    text = front_end.output("page", *words, "--to", "-")
    found = re.search(r'<script[^>]*id="data"[^>]*>(.*?)</script>', text, re.S)
    assert found
    value: dict[str, Any] = json.loads(found[1])
    return value


def test_show(history: FrontEnd) -> None:
    lines = history.output("show", id_of(1), "--all").splitlines()
    assert lines[:3] == [
        "run 00000001 of 1970-01-01 00:16:41, profile default: cargo test",
        "again in run 00000002 of 1970-01-01 00:18:20",
        "again in run 00000003 of 1970-01-01 00:20:00",
    ]
    assert {line for line in lines if "attempt" in line or "t0" in line} == {
        "PASS [1.0s] alpha t0",
        "FAIL [1.0s] alpha t1 (attempt 1 of 2, exit code 101)",
        "PASS [1.0s] alpha t1 (attempt 2 of 2)",
        *(f"FAIL [1.0s] alpha t2 (attempt {one} of 3, exit code 101)" for one in (1, 2, 3)),
        *(f"FAIL [1.0s] alpha t3 (attempt {one} of 3, exit code 101)" for one in (1, 2)),
        "PASS [1.0s] alpha t3 (attempt 3 of 3)",
    }
    # Each run took a second.
    assert lines[-1] == "4 tests in 3.0s: 3 passed (2 flaky), 1 failed"


def test_page(history: FrontEnd) -> None:
    """It has no time in which nothing ran, and a band for each run."""
    value = page_of(history, id_of(1))
    states = {str(one["name"]): one["state"] for one in value["tests"]}
    assert states == {"t0": "passed", "t1": "flaky", "t2": "failed", "t3": "flaky"}
    assert [band["name"] for band in value["bands"]] == [
        "00000001",
        "00000002 again",
        "00000003 again",
    ]
    assert value["end"] == 3_000_000
    told = {str(one["name"]): one["text"] for one in value["facts"]}
    assert told["Ran again"] == (
        f"in run {id_of(2)}, 1970-01-01 00:18:20; in run {id_of(3)}, 1970-01-01 00:20:00"
    )


def test_the_page_of_a_rerun_has_what_ran_again_of_it(history: FrontEnd) -> None:
    value = page_of(history, id_of(2))
    states = {str(one["name"]): one["state"] for one in value["tests"]}
    assert states == {"t1": "passed", "t2": "failed", "t3": "flaky"}


def test_list(history: FrontEnd) -> None:
    """The run has what came of it in the end, and the reruns stand there besides."""
    rows = [line.split() for line in history.output("list").splitlines()]
    # From the profile on: part, passed, failed, flaky, skipped, unended, status.
    assert [row[3:-3] for row in rows[1:]] == [
        ["default", "again", "of", "00000002", *"1 1 0 0 0 completed 101".split()],
        ["default", "again", "of", "00000001", *"1 2 0 0 0 completed 101".split()],
        ["default", "2", "reruns", *"3 1 2 0 0 completed 101".split()],
    ]
    own = json.loads(history.output("list", "--json"))
    assert [(one["passed"], one["failed"], one["flaky"]) for one in own] == [
        (1, 1, 0),
        (1, 2, 0),
        (1, 3, 0),
    ]


def test_where_all_passed_in_the_end_the_run_has_passed(history: FrontEnd) -> None:
    Folder(history.runs).add(4, "--.-", AGAIN, parent=3, at=300)
    row = history.output("list").splitlines()[-1].split()
    assert row[3:-3] == ["default", "3", "reruns", *"4 0 3 0 0 completed 0".split()]


def test_history_says_the_same(history: FrontEnd) -> None:
    found = json.loads(history.output("history", "t", "--json"))
    assert {one["test"]: one["marks"] for one in found} == {
        "t0": ".",
        "t1": "~",
        "t2": "F",
        "t3": "~",
    }


def test_what_ran_other_sources_is_a_run_of_its_own(history: FrontEnd) -> None:
    other = RunNotes(commit="b", part=Part.AGAIN)
    Folder(history.runs).add(4, "--.-", other, parent=1, at=300)
    assert "3 passed (2 flaky), 1 failed" in history.output("show", id_of(1))
    assert "2 reruns" in history.output("list").splitlines()[-1]


def test_a_rerun_of_a_shard_says_nothing_of_another_shard(tmp_path: pathlib.Path) -> None:
    """Both ran t1, as of two machines. It passed again on one of them alone, so it has failed."""
    front_end = front_end_in(tmp_path)
    folder = Folder(front_end.runs)
    folder.add(1, ".F", RunNotes(commit="a", group="g", shard=Shard(1, 2)))
    folder.add(
        2, "-.", RunNotes(commit="a", group="g", shard=Shard(1, 2), part=Part.AGAIN), parent=1
    )
    folder.add(3, ".F", RunNotes(commit="a", group="g", shard=Shard(2, 2)))
    assert "2 tests in 4.0s: 1 passed, 1 failed" in front_end.run("show", "g").stdout
    states = {str(one["name"]): one["state"] for one in page_of(front_end, "g")["tests"]}
    assert states == {"t0": "passed", "t1": "failed"}
    (row,) = front_end.output("list").splitlines()[1:]
    assert re.search(r" 2 of 2 shards, 1 rerun +1 +1 +0 +0 +0 +completed 101 ", row)
    (found,) = json.loads(front_end.output("history", "t1", "--json"))
    assert found["marks"] == "F"
