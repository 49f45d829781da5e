"""Runs of a group, which are shown as one."""

from __future__ import annotations

import json
import pathlib
import re
import xml.etree.ElementTree

import pytest

from rezovamy_runs.store import groups, notes
from rezovamy_runs.store.notes import RunNotes, Shard
from tests import EXAMPLES, junit_schema, made
from tests.front_end import FrontEnd, front_end_in

LINES = EXAMPLES / "sums.libtest.json"
FIRST, SECOND, THIRD = (f"{letter * 8}-0000-4000-8000-000000000000" for letter in "abc")


def add(front_end: FrontEnd, run_id: str, shard: Shard, at: int, **results: object) -> None:
    """Add a run of a shard of the group `g`, with the results of its tests."""
    events, passed = [made.run_started(at)], list(results.values()).count("pass")
    for name, result in results.items():
        events += [
            made.started(at, name),
            made.finished(at + 1, name, made.status(at, 1, result)),
        ]
    ended = made.completed(passed, len(results) - passed, 101 if passed < len(results) else 0)
    events.append(made.run_finished(at + 1, 1))
    front_end.add_bundle(run_id, made.bundle(*events, ended=ended, at=at, run_id=run_id))
    notes.write(RunNotes(group="g", shard=shard), front_end.runs / f"{run_id}.json")


@pytest.fixture
def front_end(tmp_path: pathlib.Path) -> FrontEnd:
    """A front end with both shards of a group."""
    front_end = front_end_in(tmp_path)
    add(front_end, FIRST, Shard(1, 2), 0, one="pass", two=made.exit_code())
    add(front_end, SECOND, Shard(2, 2), 10, three="pass")
    return front_end


def test_a_group_is_shown_as_one_run(front_end: FrontEnd) -> None:
    shown = front_end.output("show", "g", "--all")
    assert shown.startswith("run g ")
    assert [name for name in ("one", "two", "three") if f"alpha {name}" in shown] == [
        "one",
        "two",
        "three",
    ]
    assert "3 tests in 11.0s: 2 passed, 1 failed" in shown
    assert "alpha three" in front_end.output("show", "g", "three")


def test_a_group_is_one_line_of_the_list(front_end: FrontEnd) -> None:
    front_end.add(THIRD, 5, "pass")
    head, first, second = front_end.output("list").splitlines()
    assert first.split() == (
        "g 1970-01-01 00:16:40 default 2 of 2 shards 2 1 0 0 0 completed 101 11.0s".split()
        + first.split()[-2:]
    )
    assert second.startswith(f"{THIRD[:4]} ")
    assert len(json.loads(front_end.output("list", "--json"))) == 3


def test_the_xml_of_a_group_is_one_file(tmp_path: pathlib.Path, program: pathlib.Path) -> None:
    """A test that both shards ran is in it once, with the other failure beside it."""
    front_end = front_end_in(tmp_path)
    front_end.environment["REZOVAMY"] = str(program)
    for shard in ("1/2", "2/2"):
        words = ("test", "--from", "-", "--group", "g", "--shard", shard)
        assert front_end.run(*words, given=LINES.read_text()).returncode == 101
    assert front_end.output("junit", "g", "--to", "xml") == "xml/junit.xml\n"
    root = xml.etree.ElementTree.parse(front_end.folder / "xml/junit.xml").getroot()
    assert (root.get("tests"), root.get("failures")) == ("8", "2")
    failed = {case.get("name"): [one.tag for one in case] for case in root.iter("testcase")}
    assert failed["expects_a_product"][:2] == ["failure", "rerunFailure"]
    assert junit_schema.faults([front_end.folder / "xml/junit.xml"]) == []


def test_a_shard_that_lacks_is_told(front_end: FrontEnd) -> None:
    front_end.path_of(SECOND).unlink()
    said = front_end.run("show", "g").stderr
    assert said == "rezovamy-runs: of g no run is there of shard 2/2\n"


def test_a_test_that_two_shards_ran_is_told_and_has_the_attempts_of_both(
    front_end: FrontEnd,
) -> None:
    add(front_end, THIRD, Shard(2, 2), 20, two="pass")
    done = front_end.run("show", "g", "two")
    assert done.stderr == "rezovamy-runs: several runs of g ran alpha two\n"
    # The worse result counts, so it is the last attempt.
    assert "PASS [1.0s] alpha two (attempt 1 of 2)" in done.stdout
    assert "FAIL [1.0s] alpha two (attempt 2 of 2, exit code 101)" in done.stdout
    assert "3 tests in 21.0s: 2 passed, 1 failed" in front_end.run("show", "g").stdout


def test_the_page_of_a_group_says_what_lacks_and_what_ran_twice(front_end: FrontEnd) -> None:
    """Each run has a band, also one that ran again."""
    add(front_end, THIRD, Shard(2, 3), 20, two="pass")
    text = front_end.output("page", "g", "--to", "-")
    found = re.search(r'<script[^>]*id="data"[^>]*>(.*?)</script>', text, re.S)
    assert found
    value = json.loads(found[1])
    assert value["notes"] == [
        "Of g no run is there of shard 1/3, 3/3.",
        "Several runs of g ran alpha two.",
    ]
    names = ["shard 1/2", "shard 2/2", "shard 2/3"]
    assert value["bands"] == [{"name": name, "slot": 4 * at} for at, name in enumerate(names)]
    slots = {one["name"]: [each["slot"] for each in one["attempts"]] for one in value["tests"]}
    # Shard 1 failed, and that counts: its attempt is the last one.
    assert slots == {"one": [3], "two": [11, 3], "three": [7]}
    assert [one["state"] for one in value["tests"] if one["name"] == "two"] == ["failed"]


def test_a_group_is_compared_as_one_run(front_end: FrontEnd) -> None:
    front_end.add(THIRD, 20, "pass")
    said = front_end.output("compare", "g", THIRD).splitlines()
    assert said[1:] == ["new: 1 test", "  alpha t0", "gone: 3 tests", *GONE]


GONE = ["  alpha one", "  alpha three", "  alpha two"]
LATER = "dddddddd-0000-4000-8000-000000000000"


@pytest.mark.parametrize(
    ("shards", "whole_at", "head"),
    [
        ([Shard(1, 2), Shard(2, 2)], None, "run g "),
        ([Shard(1, 2), Shard(2, 2)], 5, "run g "),
        ([Shard(1, 2), Shard(2, 2)], 99, "run dddd "),
        ([Shard(1, 2)], 5, "run dddd "),
    ],
)
def test_the_last_run_may_be_a_group(
    tmp_path: pathlib.Path, shards: list[Shard], whole_at: int | None, head: str
) -> None:
    """It is the group if all shards are there, and no whole run started after them."""
    front_end = front_end_in(tmp_path)
    for run_id, shard in zip((FIRST, SECOND), shards):
        add(front_end, run_id, shard, 10 * shard.number, one="pass")
    if whole_at is not None:
        front_end.add(LATER, whole_at, "pass")
    assert front_end.run("show").stdout.startswith(head)


@pytest.mark.parametrize(
    ("there", "missing"),
    [
        ([], []),
        ([None], []),
        ([Shard(1, 1)], []),
        ([Shard(2, 3)], [Shard(1, 3), Shard(3, 3)]),
        ([Shard(1, 2), Shard(2, 2), None], []),
    ],
)
def test_which_shards_lack(there: list[Shard | None], missing: list[Shard]) -> None:
    assert groups.missing_shards(there) == missing
