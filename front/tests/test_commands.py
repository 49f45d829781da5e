"""The front end as a process: its commands on recorded runs, its faults, and streams that fail."""

from __future__ import annotations

import json
import os
import pathlib
import subprocess
import sys

import pytest

from tests import EXAMPLES, FRONT, made
from tests.front_end import FrontEnd

LINES = EXAMPLES / "sums.libtest.json"
OTHER = "0a1b2c3d-0000-4000-8000-000000000002"
BEGIN = "rezovamy-runs: "


@pytest.fixture
def two_runs(front_end: FrontEnd) -> FrontEnd:
    """A front end with two runs: one failed in t1, and the later one in t0."""
    front_end.add(made.ID, 0, "pass", made.exit_code())
    front_end.add(OTHER, 1000, made.exit_code(), "pass", "pass")
    return front_end


@pytest.fixture
def one_run(front_end: FrontEnd) -> FrontEnd:
    """A front end with a run of a test that passed."""
    front_end.add(made.ID, 0, "pass")
    return front_end


def fault_of(done: subprocess.CompletedProcess[str], status: int) -> str:
    """Return the one line of a command that ended so."""
    assert done.returncode == status
    (line,) = done.stderr.splitlines()
    assert line.startswith(BEGIN)
    return line


# What is told of runs.


def test_list(two_runs: FrontEnd) -> None:
    def size(run_id: str) -> str:
        return f"{two_runs.path_of(run_id).stat().st_size / 1024:.1f} KiB"

    assert two_runs.output("list").splitlines() == [
        "run                                   started              profile  part  passed  failed"
        "  flaky  skipped  unended  status         took     size",
        "0a1b2c3d-0000-4000-8000-000000000002  1970-01-01 00:33:20  default             2       1"
        f"      0        0        0  completed 101  1.0s  {size(OTHER)}",
        "0a1b2c3d-0000-4000-8000-000000000001  1970-01-01 00:16:40  default             1       1"
        f"      0        0        0  completed 101  1.0s  {size(made.ID)}",
    ]


def test_list_for_scripts(two_runs: FrontEnd) -> None:
    first, second = json.loads(two_runs.output("list", "--json"))
    path = two_runs.path_of(OTHER)
    assert first == {
        "id": OTHER,
        "prefix": OTHER,
        "started": 2000.0,
        "profile": "default",
        "command": ["cargo", "test"],
        "passed": 2,
        "failed": 1,
        "flaky": 0,
        "skipped": 0,
        "unended": 0,
        "status": "completed",
        "exit-code": 101,
        "seconds": 1.0,
        "bytes": path.stat().st_size,
        "path": str(path),
        "part": "whole",
        "notes": None,
    }
    assert second["id"] == made.ID


HEAD = f"run {OTHER} of 1970-01-01 00:33:20, profile default: cargo test"
FAILED = "FAIL [1.0s] alpha t0 (exit code 101)"
PASSED = ["PASS [1.0s] alpha t1", "PASS [1.0s] alpha t2"]
END = "3 tests in 1.0s: 2 passed, 1 failed"


@pytest.mark.parametrize(
    ("words", "lines"),
    [
        ([], [HEAD, FAILED, END]),
        (["--all"], [HEAD, FAILED, *PASSED, END]),
        (["t1"], ["PASS [1.0s] alpha t1"]),
        ([made.ID, "alpha t1"], ["FAIL [1.0s] alpha t1 (exit code 101)"]),
    ],
)
def test_show(two_runs: FrontEnd, words: list[str], lines: list[str]) -> None:
    assert two_runs.output("show", *words) == "".join(f"{line}\n" for line in lines)


def test_a_name_that_no_test_has(two_runs: FrontEnd) -> None:
    assert two_runs.run("show", "nowhere").returncode == 1


def test_compare(two_runs: FrontEnd) -> None:
    assert two_runs.output("compare", made.ID, OTHER).splitlines() == [
        "from the run of 1970-01-01 00:16:40 to that of 1970-01-01 00:33:20:",
        "newly failing: 1 test",
        "  alpha t0",
        "fixed: 1 test",
        "  alpha t1",
        "new: 1 test",
        "  alpha t2",
    ]


def test_compare_for_scripts(two_runs: FrontEnd) -> None:
    assert json.loads(two_runs.output("compare", made.ID, OTHER, "--json")) == {
        "first": made.ID,
        "second": OTHER,
        "newly-failing": [{"binary": "alpha", "test": "t0", "quarantined": False}],
        "fixed": [{"binary": "alpha", "test": "t1", "quarantined": False}],
        "still-failing": [],
        "never-ended": [],
        "new": [{"binary": "alpha", "test": "t2", "quarantined": False}],
        "gone": [],
        "slower": [],
    }


def test_a_rerun_says_that_it_is_one(two_runs: FrontEnd) -> None:
    rerun = made.bundle(
        made.run_started(),
        made.run_finished(1, 1),
        ended=made.completed(0, 0),
        at=1,
        parent_run_id=OTHER,
    )
    two_runs.add_bundle(made.ID, rerun)
    said = two_runs.output("compare", OTHER, made.ID).splitlines()
    assert said[1:3] == [
        f"run {made.ID} ran again only what hadn't passed, so other tests may seem gone or new",
        "gone: 3 tests",
    ]


def test_flaky(two_runs: FrontEnd) -> None:
    assert two_runs.output("flaky").splitlines() == [
        "failed in some runs and passed in others, but not at one commit: 2 tests",
        "  failed  flaky  passed  runs  test",
        "       1      0       1     2  alpha t0",
        "       1      0       1     2  alpha t1",
        "2 tests failed over 2 runs; the last one ran 3 tests",
    ]


def test_flaky_for_scripts(two_runs: FrontEnd) -> None:
    first, *_ = json.loads(two_runs.output("flaky", "--json"))
    assert first == {
        "binary": "alpha",
        "test": "t0",
        "kind": "over-commits",
        "runs": 2,
        "passed": 1,
        "flaky": 0,
        "failed": 1,
        "mixed-commits": 0,
        "quarantined": False,
    }


def test_prune(two_runs: FrontEnd) -> None:
    assert "0 runs removed" in two_runs.output("prune", "--keep", "2")
    assert "1 run removed" in two_runs.output("prune", "--keep", "1")
    assert os.listdir(two_runs.runs) == [f"{OTHER}.bundle"]


def test_prune_removes_a_copy_and_not_the_run_of_its_name(two_runs: FrontEnd) -> None:
    copied = two_runs.path_of(made.ID).read_bytes()
    two_runs.add_bundle("0a1b2c3d-0000-4000-8000-000000000009", copied)
    assert "2 runs removed" in two_runs.output("prune", "--keep", "1")
    assert os.listdir(two_runs.runs) == [f"{OTHER}.bundle"]


def test_a_page_is_utf_8_and_its_path_as_it_was_named(two_runs: FrontEnd) -> None:
    two_runs.environment["PYTHONIOENCODING"] = "ascii"
    assert "<title>1 failed · default · 1970-01-01" in two_runs.output("page", "--to", "-")
    path = f"{two_runs.folder}/\udcff.html"
    assert two_runs.run("page", "--to", path, errors="surrogateescape").stdout == f"{path}\n"


# Where no workspace is.


@pytest.fixture
def nowhere(two_runs: FrontEnd) -> FrontEnd:
    """A front end outside of workspaces, with two bundles in its folder."""
    for name, run_id in (("one", made.ID), ("other", OTHER)):
        two_runs.path_of(run_id).rename(two_runs.folder / f"{name}.bundle")
    del two_runs.environment["REZOVAMY_RUNS"]
    return two_runs


def test_outside_of_workspaces_bundles_are_taken_by_their_paths(nowhere: FrontEnd) -> None:
    assert nowhere.output("show", "one.bundle").startswith(f"run {made.ID} ")
    compared = nowhere.output("compare", "one.bundle", "other.bundle")
    assert "newly failing: 1 test\n" in compared
    assert pathlib.Path(nowhere.output("page", "one.bundle").strip()).name == "one.html"


@pytest.mark.parametrize(
    ("words", "said"),
    [
        (["list"], "REZOVAMY_RUNS"),
        (["junit", "one.bundle"], "--to"),
        (["show", "none.bundle"], "none.bundle"),
    ],
)
def test_outside_of_workspaces_the_rest_is_a_fault(
    nowhere: FrontEnd, words: list[str], said: str
) -> None:
    done = nowhere.run(*words)
    assert said in fault_of(done, 1)
    assert done.stdout == ""


# Faults.


@pytest.mark.parametrize(
    "words",
    [
        "",
        "nowhere",
        "list --nothing",
        "prune",
        "prune --keep -1",
        "test x",
        "test --status 1",
        "test --from x -- y",
        "test -- -- --format json",
    ],
)
def test_wrong_words(front_end: FrontEnd, words: str) -> None:
    front_end.environment["REZOVAMY"] = "/bin/true"
    fault_of(front_end.run(*words.split()), 2)


def test_a_folder_that_cannot_be_written_is_known_before_the_tests(front_end: FrontEnd) -> None:
    front_end.environment |= {"REZOVAMY": "/bin/true", "REZOVAMY_RUNS": "/dev/null/runs"}
    assert "REZOVAMY_RUNS" in fault_of(front_end.run("test"), 1)


@pytest.mark.parametrize(
    "words", [["show"], ["show", "x"], ["trace"], ["junit"], ["compare", "a", "b"]]
)
def test_no_runs(front_end: FrontEnd, words: list[str]) -> None:
    assert "rezovamy-runs " in fault_of(front_end.run(*words), 1)


def test_a_list_of_no_runs(front_end: FrontEnd) -> None:
    assert front_end.output("list", "--json") == "[]\n"


@pytest.mark.parametrize("command", ["list", "show", "flaky"])
def test_standard_output_that_is_closed(one_run: FrontEnd, command: str) -> None:
    done = one_run.run(command, before=lambda: os.close(1))
    assert "standard output" in fault_of(done, 1)


@pytest.mark.parametrize("command", ["list", "show", "flaky"])
def test_standard_output_that_is_full(one_run: FrontEnd, command: str) -> None:
    with open("/dev/full", "wb") as full:
        assert "No space left" in fault_of(one_run.run(command, stdout=full), 1)


def test_a_reader_that_has_ended(one_run: FrontEnd) -> None:
    done = one_run.run_without_reader("show")
    assert (done.returncode, done.stderr) == (141, "")


@pytest.mark.parametrize("command", ["show", "again", "page", "trace", "junit"])
def test_a_pipe_in_place_of_a_bundle_is_not_waited_for(front_end: FrontEnd, command: str) -> None:
    front_end.runs.mkdir()
    os.mkfifo(front_end.path_of(OTHER))
    fault_of(front_end.run(command, OTHER), 1)


@pytest.mark.parametrize("command", ["trace", "junit", "test"])
def test_a_program_that_is_not_there(one_run: FrontEnd, command: str) -> None:
    one_run.environment["REZOVAMY"] = "/nowhere"
    assert "REZOVAMY" in fault_of(one_run.run(command), 1)


def test_an_older_python() -> None:
    older = (
        "import runpy, sys; sys.version_info = (3, 10, 13);"
        " runpy.run_path(sys.argv[1], run_name='__main__')"
    )
    done = subprocess.run(
        [sys.executable, "-c", older, FRONT / "rezovamy-runs"],
        capture_output=True,
        text=True,
        check=False,
    )
    said = f"{BEGIN}Python 3.11 or newer is wanted: put it on the path as python3\n"
    assert (done.returncode, done.stdout, done.stderr) == (1, "", said)


def test_a_program_that_is_another_one(front_end: FrontEnd) -> None:
    front_end.environment["REZOVAMY"] = "/bin/true"
    done = front_end.run("test", "--from", str(LINES))
    assert done.returncode == 101
    assert "wrote no bundle: it isn't rezovamy" in done.stderr.splitlines()[-1]
    assert os.listdir(front_end.runs) == []


def test_a_program_that_prints_no_text(one_run: FrontEnd) -> None:
    one_run.use_program("printf '\\377'")
    assert "prints no view that can be read" in fault_of(one_run.run("again"), 1)


def test_a_recording_that_is_broken_off_leaves_nothing(front_end: FrontEnd) -> None:
    """While it goes on, the bundle is written aside."""
    begun, beside = front_end.folder / "begun", list[str]()
    front_end.use_program(f"touch {begun}\nexec sleep 600")

    def is_recording() -> bool:
        if begun.exists():
            beside.extend(os.listdir(front_end.runs))
        return bool(beside)

    done = front_end.interrupt("test", "--from", str(LINES), once=is_recording)
    assert len(beside) == 2 and f"{beside}".count(".json'") == 1
    assert (done.returncode, done.stderr.splitlines()[-1]) == (130, f"{BEGIN}broken off")
    assert os.listdir(front_end.runs) == []
