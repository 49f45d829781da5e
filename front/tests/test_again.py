"""Tests that are run again, by programs that are made for it, and by the built one."""

from __future__ import annotations

import json
import pathlib
import re
import subprocess

import pytest

from rezovamy_runs.bundles import bundle_file
from tests import EXAMPLES, made
from tests.fake_programs import FakePrograms
from tests.front_end import FrontEnd, front_end_in

LINES = EXAMPLES / "sums.libtest.json"
OTHER = "0a1b2c3d-0000-4000-8000-000000000002"
INFO: dict[str, object] = {
    "parent-run-id": made.ID,
    "root-info": {"build-scope": {"build-kind": "cargo", "scope": {}}, "run-id": made.ID},
    "test-suites": [{"binary_id": "alpha", "outstanding": ["t1"], "passing": ["t0"]}],
}
RUN_ALL = "run all again with `rezovamy-runs test`"


@pytest.fixture
def front_end(tmp_path: pathlib.Path) -> FrontEnd:
    """A front end with a run of which one test failed."""
    front_end = front_end_in(tmp_path)
    front_end.add(made.ID, 0, "pass", made.exit_code())
    return front_end


@pytest.fixture
def programs(tmp_path: pathlib.Path, front_end: FrontEnd) -> FakePrograms:
    """The programs that the front end starts."""
    programs = FakePrograms(tmp_path, INFO)
    programs.write()
    programs.use_in(front_end)
    return programs


def faults_of(front_end: FrontEnd, status: int, *words: str) -> list[str]:
    """Return what is said by a command that records nothing, and ends so."""
    done = front_end.run(*words)
    assert (done.returncode, done.stdout) == (status, "")
    return done.stderr.splitlines()


def test_what_has_not_passed_is_recorded_as_a_rerun(
    front_end: FrontEnd, programs: FakePrograms
) -> None:
    """The head tells of which run, and lists all of its tests."""
    programs.write_plan("run alpha t1", "skip alpha t0")
    done = front_end.run("again", "--shared")
    assert (done.returncode, done.stderr) == (0, "")
    assert "1 test in " in done.stdout
    assert programs.asked() == [["-p", "alpha", "--lib", "--", "--exact", "t1"]]
    head, started, *_ = programs.session()
    assert (head["parent-run-id"], head["rerun-info"]) == (made.ID, INFO)
    assert programs.suites() == {"alpha": ["t1", "t0"]}
    assert head["cli-args"] == ["rezovamy-runs", "again", made.ID]
    assert started["profile-name"] == "default"
    first, _ = json.loads(front_end.output("list", "--json"))
    assert (first["id"], first["passed"], first["failed"]) == (head["run-id"], 1, 0)


def test_each_binary_is_run_with_the_words_that_are_given(
    front_end: FrontEnd, programs: FakePrograms
) -> None:
    """They stand before those that name its tests."""
    programs.write_plan("run alpha t1", "run alpha::it bad", "run alpha::it t2", "skip alpha t0")
    done = front_end.run("again", "--shared", made.ID[:9], "--", "--release", "--", "--nocapture")
    assert done.returncode == 101
    assert re.search(r"FAIL \[.*\] alpha::it bad \(exit code 101\)", done.stdout)
    assert "3 tests in " in done.stdout
    exact = ["--", "--nocapture", "--exact"]
    assert programs.asked() == [
        ["--release", "-p", "alpha", "--lib", *exact, "t1"],
        ["--release", "-p", "alpha", "--test", "it", *exact, "bad", "t2"],
    ]


def test_what_runs_after_a_binary_that_ended_in_a_test_is_told_too(
    front_end: FrontEnd, programs: FakePrograms
) -> None:
    """Cargo runs for each of them, and the tests after that."""
    programs.write_plan(
        "run alpha exits",
        "run alpha::bin/b crashes",
        "run alpha::bin/c bad",
        "run alpha::bin/d t2",
    )
    done = front_end.run("again", "--shared")
    assert done.returncode == 101
    for pattern in (
        r"FAIL \[.*\] alpha exits \(exit code 0\)",
        r"ABORT \[.*\] alpha::bin/b crashes \(signal 6, SIGABRT\)",
        r"FAIL \[.*\] alpha::bin/c bad",
        "4 tests in .*: 1 passed, 3 failed\n",
    ):
        assert re.search(pattern, done.stdout), done.stdout
    suites = programs.suites()
    assert isinstance(suites, dict)
    assert list(suites) == ["alpha", "alpha::bin/b", "alpha::bin/c", "alpha::bin/d"]


def test_where_all_have_passed_nothing_is_run(front_end: FrontEnd, programs: FakePrograms) -> None:
    """It is said, and no run is added."""
    programs.write_plan("skip alpha t0", "skip alpha t1")
    said = f"rezovamy-runs: all tests of run {made.ID} have passed, so nothing is run again"
    assert faults_of(front_end, 0, "again", "--shared") == [said]
    assert (programs.asked(), len(list(front_end.runs.iterdir()))) == ([], 1)


def test_what_cargo_has_no_word_for(front_end: FrontEnd, programs: FakePrograms) -> None:
    """It isn't run, which is said."""
    programs.write_plan("run (cargo) (build)")
    nameless = "cargo has no word for it alone; run all tests again"
    assert faults_of(front_end, 1, "again", "--shared") == [
        f"rezovamy-runs: (cargo) (build): {nameless}",
        f"rezovamy-runs: nothing of this can be run again alone: {RUN_ALL}",
    ]
    programs.write_plan("run (cargo) (run)", "run alpha t1", "gone beta t9")
    done = front_end.run("again", "--shared")
    assert (done.returncode, len(done.stderr.splitlines())) == (0, 2)
    assert "beta t9: the run's test list lacks it, so that it isn't run\n" in done.stderr


def test_tests_that_are_not_there_any_more_have_not_passed(
    front_end: FrontEnd, programs: FakePrograms
) -> None:
    """They are said, and the status tells it where all others passed."""
    (programs.folder / "others").write_text("9")
    programs.write_plan("run alpha gone1", "run alpha t1", "run alpha gone2", "run alpha::it gone3")
    done = front_end.run("again", "--shared")
    assert "1 passed" in done.stdout
    lacking = "no test of this name is there, as it is built now, so that it didn't run"
    assert done.returncode == 1
    assert done.stderr.splitlines() == [
        f"rezovamy-runs: alpha gone1, and 1 more of it: {lacking}",
        f"rezovamy-runs: alpha::it gone3: {lacking}",
    ]
    programs.write_plan("run alpha gone1", "run alpha bad")
    assert front_end.run("again", "--shared").returncode == 101


def add_first_run(front_end: FrontEnd, *words: str) -> None:
    """Let the first run be one of `cargo test` with these words.

    It is of a package whose source is `src/lib.rs`.
    """
    data = made.bundle(
        made.run_started(),
        made.run_finished(1, 1),
        ended=made.completed(0, 0),
        run_id=made.ID,
        cli_args=["cargo", "test", *words],
    )
    front_end.add_bundle(made.ID, data)
    for name, text in (
        ("src/lib.rs", "#[test] fn t0() {} // goneness\n"),
        ("target/.rustc_info.json", ""),
        ("target/built.rs", "fn gone1() {} fn gone2() {}"),
        ("others", "1"),
    ):
        path = front_end.folder / name
        path.parent.mkdir(exist_ok=True)
        path.write_text(text)


def test_tests_that_are_gone_from_the_source_are_not_asked_for_again(
    front_end: FrontEnd, programs: FakePrograms
) -> None:
    """Once the binary ran without them, the list of the run lacks them."""
    add_first_run(front_end, "--release", "--", "x")
    programs.write_plan(
        "run alpha tests::gone1", "run alpha t1", "run alpha gone2", "skip alpha t0"
    )
    done = front_end.run("again", "--shared", "--", "--release")
    gone = "it is gone, since neither the binary nor a source has a test of this name"
    said = f"rezovamy-runs: alpha tests::gone1, and 1 more of it: {gone}\n"
    assert (done.returncode, done.stderr) == (0, said)
    assert programs.suites() == {"alpha": ["t1", "t0"]}
    programs.write_plan("skip alpha t0", "skip alpha t1", "gone alpha gone1")
    there = f"all tests of run {made.ID} that are still there have passed"
    assert faults_of(front_end, 0, "again", "--shared", made.ID) == [
        "rezovamy-runs: alpha gone1: the run's test list lacks it, so that it isn't run",
        f"rezovamy-runs: {there}, so nothing is run again",
    ]


@pytest.mark.parametrize(
    ("words", "others", "source", "status"),
    [
        pytest.param(["--features", "x"], "1", "", 0, id="gone"),
        pytest.param([], "1", "", 1, id="another build"),
        pytest.param(["--features", "x"], "2", "", 1, id="a test that is new"),
        pytest.param(["--features", "x"], "1", "fn gone1() {}", 1, id="in the source"),
        pytest.param(
            ["-v", "--features", "x", "--", "-q"], "0", "fn gone11() {}", 0, id="a longer name"
        ),
    ],
)
def test_tests_that_may_be_there_under_other_names_or_words_are_not_gone(
    front_end: FrontEnd,
    programs: FakePrograms,
    words: list[str],
    others: str,
    source: str,
    status: int,
) -> None:
    """Such a test stays in the list of the run."""
    add_first_run(front_end, "--features", "x")
    programs.write_plan("run alpha gone1", "run alpha t1", "skip alpha t0")
    (programs.folder / "others").write_text(others)
    (programs.folder / "src/more.rs").write_text(source)
    done = front_end.run("again", "--shared", made.ID, "--", *words)
    assert done.returncode == status
    assert ("no test of this name is there" in done.stderr) == bool(status)
    suites = programs.suites()
    assert isinstance(suites, dict)
    assert ("gone1" in suites["alpha"]) == bool(status)


def test_a_binary_that_failed_by_its_own_name_runs_whole(
    front_end: FrontEnd, programs: FakePrograms
) -> None:
    """Its tests take the place of the failure."""
    add_first_run(front_end)
    (programs.folder / "others").unlink()
    programs.write_plan("run alpha::it it", "skip alpha::it t0")
    done = front_end.run("again", "--shared")
    whole = "it may have failed by its own name, so that all of its tests run"
    assert (done.returncode, done.stderr) == (0, f"rezovamy-runs: alpha::it: {whole}\n")
    assert "--exact" not in programs.asked()[0]
    assert programs.suites() == {"alpha::it": ["t0"]}


def test_a_target_that_is_gone_is_not_run(front_end: FrontEnd, programs: FakePrograms) -> None:
    """Cargo is asked which targets there are."""
    targets = [{"name": "alpha", "kind": ["lib"]}, {"name": "it", "kind": ["test"]}]
    programs.write_metadata([{"name": "alpha", "targets": targets}])
    programs.write_plan(
        "run alpha::old t1", "run alpha::old t2", "run alpha::it t3", "run alpha t1"
    )
    done = front_end.run("again", "--shared")
    gone = "alpha has no such target any more, so that it isn't run"
    said = f"rezovamy-runs: alpha::old t1, and 1 more of it: {gone}\n"
    assert (done.returncode, done.stderr, len(programs.asked())) == (0, said, 2)
    programs.write_plan("run alpha::old t1", "skip alpha t1")
    there = f"all tests of run {made.ID} that are still there have passed"
    assert faults_of(front_end, 0, "again", "--shared", made.ID)[1:] == [
        f"rezovamy-runs: {there}, so nothing is run again",
    ]


def add_unseen(front_end: FrontEnd, run_id: str, count: int, parent: str | None = None) -> None:
    """Add a run in which so many tests never started; it may be a rerun of another one."""
    unseen = {"not-seen": [], "total-not-seen": count}
    finished = made.run_finished(1, 1, outstanding_not_seen=unseen)
    ended = made.completed(0, 0)
    data = made.bundle(
        made.run_started(), finished, ended=ended, run_id=run_id, parent_run_id=parent
    )
    front_end.add_bundle(run_id, data)


def test_tests_that_never_started_in_a_rerun_are_those_of_the_run_before(
    front_end: FrontEnd, programs: FakePrograms
) -> None:
    """Where that one is gone, nothing is said of them."""
    add_unseen(front_end, made.ID, 2)
    add_unseen(front_end, OTHER, 5, parent=made.ID)
    programs.write_plan("run alpha t1")
    done = front_end.run("again", "--shared", OTHER)
    assert done.returncode == 1
    assert "2 tests of the run never started" in done.stderr
    (front_end.runs / f"{made.ID}.bundle").unlink()
    done = front_end.run("again", "--shared", OTHER)
    assert (done.returncode, done.stderr) == (0, "")


def test_tests_that_never_started_are_counted(front_end: FrontEnd, programs: FakePrograms) -> None:
    """The run can't name them."""
    add_unseen(front_end, made.ID, 2)
    programs.write_plan()
    nameless = "2 tests of the run never started, and nothing names them"
    said = f"rezovamy-runs: {nameless}: `rezovamy-runs test` runs all"
    assert faults_of(front_end, 1, "again", "--shared")[0] == said
    programs.write_plan("run alpha t1")
    done = front_end.run("again", "--shared", made.ID)
    assert "1 passed" in done.stdout
    assert (done.returncode, done.stderr) == (1, f"{said}\n")


def test_a_plan_that_is_none(front_end: FrontEnd, programs: FakePrograms) -> None:
    """The line is named."""
    programs.write_plan("run alpha t\x0bu", "t2")
    (line,) = faults_of(front_end, 1, "again", "--shared")
    assert "line 3 names no test" in line


def test_a_run_that_is_broken_off_runs_no_other_binary(
    front_end: FrontEnd, programs: FakePrograms
) -> None:
    """What ran is recorded, and the tests of the other one never started."""
    programs.write_plan("run alpha t1", "run alpha hangs", "run alpha::it t2")
    done = front_end.interrupt("again", "--shared", once=(programs.folder / "hanging").exists)
    assert (done.returncode, len(programs.asked())) == (130, 2)
    assert "1 passed, 1 failed, 1 never ended; the run was broken off" in done.stdout
    assert json.loads(front_end.output("list", "--json"))[0]["status"] == "cancelled"


@pytest.mark.program
def test_what_the_program_names(tmp_path: pathlib.Path, program: pathlib.Path) -> None:
    """It names the tests that failed."""
    front_end = front_end_in(tmp_path)
    front_end.environment["REZOVAMY"] = str(program)
    assert front_end.run("test", "--from", str(LINES)).returncode == 101
    recorded = next(front_end.runs.glob("*.bundle.gz"))
    with bundle_file.plain(recorded) as bundle:
        done = subprocess.run([program, "rerun"], stdin=bundle, capture_output=True, check=True)
    info, *lines = done.stdout.decode().splitlines()
    suites = [suite["outstanding"] for suite in json.loads(info)["test-suites"]]
    assert [names for names in suites if names] == [["answers_an_error", "expects_a_product"]]
    assert [line for line in lines if line.startswith("run ")] == [
        "run sums tests::adds_very_many",
        "run sums::wrong answers_an_error",
        "run sums::wrong expects_a_product",
    ]
