"""Which run is the last whole one, and which runs are listed."""

from __future__ import annotations

import argparse
import json
import pathlib
import time

import pytest

from rezovamy_runs import instants
from rezovamy_runs.store import notes
from rezovamy_runs.store.notes import Part, RunNotes, Shard
from rezovamy_runs.store.run_folder import Store
from tests import made
from tests.front_end import FrontEnd, front_end_in

IDS = tuple(f"{letter * 8}-0000-4000-8000-000000000000" for letter in "abcdef")
WHOLE, FILTERED, AGAIN, SHARD, NEWER, OLDER = IDS
BRANCHES = {WHOLE: "main", FILTERED: "topic", NEWER: "topic"}


@pytest.fixture
def front_end(tmp_path: pathlib.Path) -> FrontEnd:
    """A front end whose last whole run was the second of five, and the last but one without notes.

    They started at the seconds 1000, 2000 and so on after the first second of `made`.
    """
    front_end = front_end_in(tmp_path)
    front_end.add(OLDER, 0, "pass", "pass", "pass")
    front_end.add(WHOLE, 1000, "pass", made.exit_code())
    front_end.add(FILTERED, 2000, "pass")
    front_end.add(SHARD, 3000, "pass")
    front_end.add_bundle(
        AGAIN, made.bundle(made.run_started(4000), at=4000, run_id=AGAIN, parent_run_id=WHOLE)
    )
    note(front_end, WHOLE, RunNotes(branch="main", commit="c0ffee"))
    note(front_end, FILTERED, RunNotes(part=Part.FILTERED, branch="topic", commit="c0de"))
    note(front_end, SHARD, RunNotes(shard=Shard(1, 2), group="g"))
    return front_end


def note(front_end: FrontEnd, run_id: str, known: RunNotes) -> None:
    """Write the notes of a run."""
    notes.write(known, front_end.runs / f"{run_id}.json")


def listed(front_end: FrontEnd, *words: str) -> list[str]:
    """Return the ids that `list` prints."""
    return [run["id"] for run in json.loads(front_end.output("list", "--json", *words))]


@pytest.mark.parametrize(("word", "run_id"), [("last", WHOLE), ("last-any", AGAIN)])
def test_the_last_run_is_the_last_whole_one(front_end: FrontEnd, word: str, run_id: str) -> None:
    assert front_end.run("show", word).stdout.startswith(f"run {run_id[:4]} ")


def test_a_later_part_is_told(front_end: FrontEnd) -> None:
    assert front_end.run("show").stderr == (
        "rezovamy-runs: aaaa is the last whole run; `last-any` is a later part of one\n"
    )
    front_end.add(NEWER, 5000, "pass")
    assert front_end.output("show").startswith(f"run {NEWER[:4]} ")


def test_if_no_run_is_whole_the_last_one_is_taken(front_end: FrontEnd) -> None:
    for run_id in (WHOLE, OLDER):
        note(front_end, run_id, RunNotes(part=Part.NONE))
    assert front_end.output("show").startswith(f"run {AGAIN[:4]} ")


def test_parts_are_marked_in_the_list(front_end: FrontEnd) -> None:
    head, *lines = front_end.output("list").splitlines()
    place = slice(head.index("part"), head.index("passed"))
    assert [(line[:4].strip(), line[place].strip()) for line in lines] == [
        ("cccc", "again of aaaa"),
        ("g", "1 of 2 shards"),
        ("bbbb", "filtered"),
        ("aaaa", ""),
        ("ffff", ""),
    ]
    runs = json.loads(front_end.output("list", "--json"))
    assert [run["part"] for run in runs] == ["again", "whole", "filtered", "whole", "whole"]
    assert [run["notes"] and run["notes"].get("branch") for run in runs] == [
        None,
        None,
        "topic",
        "main",
        None,
    ]


@pytest.mark.parametrize(
    ("words", "found"),
    [
        (["--branch", "main"], [WHOLE]),
        (["--commit", "C0"], [FILTERED, WHOLE]),
        (["--commit", "c0ff"], [WHOLE]),
        (["--branch", "topic", "--commit", "c0de"], [FILTERED]),
        (["--since", "1970-01-01"], [AGAIN, SHARD, FILTERED, WHOLE, OLDER]),
    ],
)
def test_runs_are_listed_by_branch_commit_and_time(
    front_end: FrontEnd, words: list[str], found: list[str]
) -> None:
    assert listed(front_end, *words) == found


def test_if_no_run_is_so_that_is_said(front_end: FrontEnd) -> None:
    done = front_end.run("list", "--since", "1h")
    assert (done.returncode, done.stdout) == (0, "")
    assert done.stderr == "rezovamy-runs: none of 5 runs is so: leave options out\n"
    assert listed(front_end, "--branch", "none") == []


def test_a_test_that_a_run_lacks_is_shown_where_it_was_last(front_end: FrontEnd) -> None:
    done = front_end.run("show", "t2")
    assert done.returncode == 1
    assert "it was last in the run of 1970-01-01 00:16:40: `rezovamy-runs show ffff t2`" in (
        done.stderr
    )
    nowhere = front_end.run("show", "t9")
    assert "no test of run" in nowhere.stderr and "`show --all` names all tests" in nowhere.stderr


@pytest.mark.parametrize(
    ("word", "seconds"), [("90s", 90), ("2m", 120), ("12h", 43200), ("1w", 604800)]
)
def test_a_length_of_time(word: str, seconds: int) -> None:
    assert instants.age(word) == seconds
    assert abs(time.time() - seconds - instants.since(word)) < 60


@pytest.mark.parametrize(
    ("word", "size"),
    [("7", 7), ("2K", 2048), ("500M", 524288000), ("2G", 2147483648), ("1GiB", 1 << 30)],
)
def test_a_size(word: str, size: int) -> None:
    assert instants.size(word) == size


@pytest.mark.parametrize("word", ["", "h", "-1h", "1.5h", "1y", "2026-13-01", "2026-1-1"])
def test_what_is_no_time(word: str) -> None:
    with pytest.raises(argparse.ArgumentTypeError, match="write it as"):
        instants.since(word)


@pytest.mark.parametrize("word", ["", "G", "-1", "1.5G", "2X"])
def test_what_is_no_size(word: str) -> None:
    with pytest.raises(argparse.ArgumentTypeError, match="write it as"):
        instants.size(word)


def test_again_goes_on_from_the_last_rerun_of_the_last_whole_run(front_end: FrontEnd) -> None:
    runs = Store(front_end.runs)
    assert runs.last_in_row() == runs.path_of(AGAIN)
    rerun = made.bundle(made.run_started(5000), at=5000, run_id=NEWER, parent_run_id=AGAIN)
    front_end.add_bundle(NEWER, rerun)
    assert runs.last_in_row() == runs.path_of(NEWER)
    for run_id in (NEWER, AGAIN):
        front_end.path_of(run_id).unlink()
    assert runs.last_in_row() == runs.path_of(WHOLE)
