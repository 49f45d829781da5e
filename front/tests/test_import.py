"""Runs that are taken over from other folders."""

from __future__ import annotations

import json
import os
import pathlib

import pytest

from rezovamy_runs.bundles import bundle_file
from rezovamy_runs.store import notes
from rezovamy_runs.store.notes import RunNotes, Shard
from tests import made
from tests.front_end import FrontEnd, front_end_in

FIRST, SECOND, THIRD = (
    f"{start}-0000-4000-8000-000000000000" for start in ("aaaa1111", "aaaa2222", "bbbb1111")
)


@pytest.fixture
def front_end(tmp_path: pathlib.Path) -> FrontEnd:
    """A front end whose folder of runs isn't there yet."""
    return front_end_in(tmp_path)


def bundle_of(run_id: str) -> bytes:
    """Return the bundle of a run of this id."""
    return made.bundle(made.run_started(), run_id=run_id)


def write(folder: pathlib.Path, run_id: str, name: str | None = None) -> pathlib.Path:
    """Write the bundle of a run into a folder, and return its path."""
    folder.mkdir(parents=True, exist_ok=True)
    path = folder / (name or f"{run_id}.bundle")
    path.write_bytes(bundle_of(run_id))
    return path


def ids(front_end: FrontEnd) -> list[str]:
    """Return the ids of the runs."""
    return sorted(run["id"] for run in json.loads(front_end.output("list", "--json")))


def test_folders_of_shards_are_brought_together(front_end: FrontEnd) -> None:
    """They may be below one folder, as a CI lays down what its jobs left."""
    left = front_end.folder / "left"
    write(left / "shard-1", FIRST)
    write(left / "shard-2", SECOND, "any name.bundle")
    (left / "shard-1" / f".{THIRD}.x.bundle").write_bytes(bundle_of(THIRD))
    known = RunNotes(group="g", shard=Shard(1, 2), branch="main")
    notes.write(known, left / "shard-1" / f"{FIRST}.json")
    said = front_end.output("import", "left")
    assert said == f"2 runs taken over; the runs are in {front_end.runs}\n"
    assert ids(front_end) == [FIRST, SECOND]
    names = [f"{FIRST}.bundle.gz", f"{FIRST}.json", f"{SECOND}.bundle.gz"]
    assert sorted(os.listdir(front_end.runs)) == names
    assert notes.read(front_end.runs / f"{FIRST}.json") == known
    kept = (front_end.runs / f"{SECOND}.bundle.gz").read_bytes()
    assert bundle_file.plain_bytes(kept) == bundle_of(SECOND)
    assert (left / "shard-1" / f"{FIRST}.bundle").exists()


def test_a_run_that_is_there_is_told_and_left_alone(front_end: FrontEnd) -> None:
    front_end.add_bundle(FIRST, made.bundle(made.run_started(profile="own"), run_id=FIRST))
    before = front_end.path_of(FIRST).read_bytes()
    write(front_end.folder / "left", FIRST)
    write(front_end.folder / "other", SECOND)
    write(front_end.folder / "other/deep", SECOND, "again.bundle")
    said = front_end.output("import", "left", "other")
    assert said.startswith("1 run taken over, 2 runs there already; ")
    assert front_end.path_of(FIRST).read_bytes() == before
    assert "0 runs taken over" not in front_end.output("import", "left")


def test_what_cannot_be_read_is_told_and_keeps_no_other_run_out(front_end: FrontEnd) -> None:
    left = front_end.folder / "left"
    write(left, FIRST)
    (left / "broken.bundle").write_bytes(b"broken")
    (left / f"{FIRST}.json").write_bytes(b"broken")
    done = front_end.run("import", "left")
    assert (done.returncode, done.stdout) == (
        1,
        f"1 run taken over, 1 run not readable; the runs are in {front_end.runs}\n",
    )
    first, second = done.stderr.splitlines()
    assert f"left/{FIRST}.json isn't the notes of a run" in first
    assert "left/broken.bundle: rezovamy view: this isn't a bundle" in second
    assert ids(front_end) == [FIRST]


@pytest.mark.parametrize(
    ("made_folder", "said"), [(True, "no bundle is in left"), (False, "no folder is at left")]
)
def test_a_folder_without_runs_is_a_fault(
    front_end: FrontEnd, made_folder: bool, said: str
) -> None:
    if made_folder:
        (front_end.folder / "left").mkdir()
    done = front_end.run("import", "left")
    assert (done.returncode, done.stdout) == (1, "")
    assert f"{said}: name a folder of runs" in done.stderr


def test_a_bundle_is_taken_over_by_its_path(front_end: FrontEnd) -> None:
    path = write(front_end.folder / "left", FIRST, "one.bundle")
    assert front_end.output("import", str(path)).startswith("1 run taken over; ")
    assert ids(front_end) == [FIRST]
