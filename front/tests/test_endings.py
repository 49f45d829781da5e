"""The tests of `examples/endings`, each run as a process by the front end."""

from __future__ import annotations

import json
import pathlib
import shutil
import subprocess

import pytest

from rezovamy_runs.bundles import bundle
from rezovamy_runs.model import Result, Run
from tests.front_end import FrontEnd

pytestmark = [pytest.mark.cargo, pytest.mark.program]

BUILT = shutil.ignore_patterns("target", "Cargo.lock")
RUNNER = '#!/bin/sh\necho "through $1" >> "$THROUGH"\nshift\nexec "$@"\n'
VARIABLE = "CARGO_TARGET_X86_64_UNKNOWN_LINUX_GNU_RUNNER"
# How each test of `ways::ends` ends by itself, and what is said of it.
ENDS = {
    "a_moment": (Result.PASS, ""),
    "passes": (Result.PASS, ""),
    "fails": (Result.FAIL, "exit code 101"),
    "answers_an_error": (Result.FAIL, "exit code 101"),
    "panics_in_a_thread_that_is_joined": (Result.FAIL, "exit code 101"),
    "panics_in_a_thread_that_is_left": (Result.PASS, ""),
    "panics_as_it_should": (Result.PASS, ""),
    "aborts": (Result.ABORT, "signal 6, SIGABRT"),
    "exits_with_0": (Result.FAIL, "exit code 0"),
    "exits_with_7": (Result.FAIL, "exit code 7"),
    "exits_with_101": (Result.FAIL, "exit code 101"),
    "segfaults": (Result.ABORT, "signal 11, SIGSEGV"),
    "overflows_its_stack": (Result.ABORT, "signal 6, SIGABRT"),
    "is_killed": (Result.ABORT, "signal 9, SIGKILL"),
    "leaks_a_child": (Result.LEAK, ""),
    "closes_descriptor_1": (Result.PASS, ""),
    "prints_that_it_failed": (Result.PASS, ""),
    "prints_that_it_passed": (Result.FAIL, "exit code 0"),
    "passes_at_the_second_try": (Result.PASS, ""),
}
# In a process with other tests nothing tells which of them has left a child.
SHARED_ENDS = {**ENDS, "leaks_a_child": (Result.PASS, "")}
LIBRARY = ["tests::größer", "tests::is_stable", "tests::tells_where_it_runs"]
WHOLE_RUN = {
    "twin::ends": ["passes"],
    "twin::doc/twin": ["twin"],
    "ways": LIBRARY,
    "ways::ends": [*ENDS, "is_ignored"],
    "ways::plain": ["plain"],
    "ways::prints": ["a_line_of_5_megabytes", "what_a_child_prints", "what_is_no_text"],
    "ways::doc/ways": ["ways"],
}


def last_run(front_end: FrontEnd) -> Run:
    """Return the run that was recorded last."""
    runs = json.loads(front_end.output("list", "--json"))
    return bundle.read_run(runs[0]["path"])


def names_of(run: Run) -> dict[str, list[str]]:
    """Return the tests of a run by binary, in the order of their names."""
    names: dict[str, list[str]] = {}
    for test in run.tests:
        names.setdefault(test.binary, []).append(test.name)
    return {binary: sorted(tests) for binary, tests in names.items()}


def fresh(front_end: FrontEnd) -> list[bool]:
    """Return of each thing that `cargo test` built now whether it was there."""
    words = ["cargo", "test", "--no-run", "--message-format", "json"]
    done = subprocess.run(
        words, cwd=front_end.folder, env=front_end.environment, capture_output=True, check=True
    )
    lines = (json.loads(line) for line in done.stdout.splitlines())
    return [line["fresh"] for line in lines if line["reason"] == "compiler-artifact"]


def test_each_way_of_ending(endings: FrontEnd) -> None:
    """Exactly the test that ended so is told so."""
    done = endings.run("test", "--", "--", "--skip", "hangs")
    assert done.returncode == 101
    run = last_run(endings)
    assert names_of(run) == {binary: sorted(tests) for binary, tests in WHOLE_RUN.items()}
    told = {
        test.name: (test.attempts[-1].result, test.attempts[-1].detail)
        for test in run.tests
        if test.binary == "ways::ends" and test.attempts
    }
    assert told == ENDS
    assert all(test.attempts[0].slot is not None for test in run.tests if test.attempts)
    others = {
        (test.binary, test.name): test.attempts[-1].result
        for test in run.tests
        if test.binary not in ("ways::ends", "ways::prints")
    }
    assert others.pop(("ways::doc/ways", "ways")) is Result.FAIL
    assert set(others.values()) == {Result.PASS}
    assert "the second example is wrong" in done.stderr
    assert "one is not two" in done.stderr


@pytest.mark.parametrize("way", [(), ("--shared",)], ids=["alone", "shared"])
def test_what_is_hard_to_keep(endings: FrontEnd, way: tuple[str, ...]) -> None:
    """A very long line keeps its ends. Bytes that are no text are printed, and don't disturb."""
    done = endings.run("test", *way, "--", "-p", "ways", "--test", "prints")
    assert done.returncode == 101
    run = last_run(endings)
    long, child, no_text = sorted(run.tests, key=lambda test: test.name)
    assert [test.attempts[0].result for test in (long, child, no_text)] == [
        Result.PASS,
        Result.FAIL,
        Result.FAIL,
    ]
    kept = b"".join(long.attempts[0].outputs.values())
    assert b"xxx" in kept and b"x<\n" in kept and len(kept) < 5_000_000
    assert "größer als 你好" in done.stderr
    for text in ("from a child", "and its error", "after its child"):
        assert text in done.stderr


@pytest.mark.parametrize("name", [name for name in ENDS if name != "a_moment"])
def test_each_way_of_ending_in_a_shared_process(endings: FrontEnd, name: str) -> None:
    """The test beside it has passed, whatever became of their process."""
    words = ["-p", "ways", "--test", "ends", "--", "--test-threads=2", "--exact", "a_moment", name]
    done = endings.run("test", "--shared", "--", *words)
    told = {
        test.name: [(attempt.result, attempt.detail) for attempt in test.attempts]
        for test in last_run(endings).tests
    }
    assert told == {"a_moment": [ENDS["a_moment"]], name: [SHARED_ENDS[name]]}, done.stderr
    has_passed = SHARED_ENDS[name][0] is Result.PASS
    assert done.returncode == (0 if has_passed else 101)


def test_a_crash_of_a_shared_process(endings: FrontEnd) -> None:
    """What ran beside it is told so, what hadn't started is named, and only the crash is red."""
    words = ["-p", "ways", "--test", "ends", "--", "--test-threads=2", "--exact"]
    done = endings.run("test", "--shared", "--", *words, "a_moment", "is_killed", "passes")
    assert done.returncode == 101
    said = "ran beside a crash: its process was ended by signal 9 while it and is_killed ran"
    assert f"ways::ends a_moment: {said}; by itself it passed" in done.stderr
    run = last_run(endings)
    assert (run.counts.passed, run.counts.failed, run.counts.unseen) == (1, 1, 1)
    assert "ways::ends passes" in endings.run("show").stdout
    done = endings.run("again", "--shared")
    assert done.returncode == 101
    assert names_of(last_run(endings)) == {"ways::ends": ["is_killed", "passes"]}


def test_retries_of_a_shared_process(endings: FrontEnd) -> None:
    """What failed there is tried again by itself, and what ran beside a crash passes at once."""
    words = ["-p", "ways", "--test", "ends", "--", "--test-threads=2", "--exact"]
    done = endings.run("test", "--shared", "--retries", "1", "--", *words, "a_moment", "is_killed")
    assert done.returncode == 101
    told = {
        test.name: [(attempt.number, attempt.result, attempt.detail) for attempt in test.attempts]
        for test in last_run(endings).tests
    }
    assert told == {
        "a_moment": [(1, *ENDS["a_moment"])],
        "is_killed": [(1, *SHARED_ENDS["is_killed"]), (2, *ENDS["is_killed"])],
    }


def test_nothing_is_compiled_again(endings: FrontEnd) -> None:
    """It alternates with `cargo test`, and a build script watches RUSTC_BOOTSTRAP."""
    fresh(endings)
    for _ in range(2):
        done = endings.run("test", "--", "--lib")
        assert (done.returncode, "Compiling" in done.stderr) == (0, False)
        assert all(fresh(endings))


def test_what_a_test_sees(endings: FrontEnd, tmp_path: pathlib.Path) -> None:
    """Its directory and its environment are those that cargo gives it."""
    words = ["-p", "ways", "--lib", "tells_where_it_runs"]
    told = tmp_path / "told"
    endings.environment["TELL"] = str(told)
    endings.environment["RUSTDOC"] = "rustdoc"
    subprocess.run(
        ["cargo", "test", *words],
        cwd=endings.folder,
        env=endings.environment,
        capture_output=True,
        check=True,
    )
    expected = told.read_text().split("\0")
    told.unlink()
    assert endings.run("test", "--", *words).returncode == 0
    assert told.read_text().split("\0") == expected


@pytest.mark.parametrize(
    ("words", "expected"),
    [
        (["--lib"], {"ways": LIBRARY}),
        (["-p", "twin"], {"twin::ends": ["passes"], "twin::doc/twin": ["twin"]}),
        (["--doc", "-p", "twin"], {"twin::doc/twin": ["twin"]}),
        (["--test", "plain"], {"ways::plain": ["plain"]}),
        (["--tests", "größer"], {"ways": ["tests::größer"], "ways::plain": ["plain"]}),
        (["--lib", "--", "is", "it"], {"ways": LIBRARY[1:]}),
        (["--lib", "--", "--skip", "stable", "--skip", "größer"], {"ways": LIBRARY[2:]}),
        (["--lib", "--", "--exact", "tests::is_stable", "größer"], {"ways": LIBRARY[1:2]}),
        (["--test", "ends", "--", "--ignored"], {"ways::ends": ["is_ignored"]}),
        (
            ["-p", "ways", "--lib", "--features", "more", "--", "feature"],
            {"ways": ["tests::is_there_with_the_feature"]},
        ),
        (
            ["--lib", "-q", "--", "-q", "--nocapture", "--test-threads=1", "gr"],
            {"ways": LIBRARY[:1]},
        ),
        (["--lib", "--", "nothing"], {}),
    ],
)
def test_words_of_cargo(
    endings: FrontEnd, words: list[str], expected: dict[str, list[str]]
) -> None:
    """They mean what they mean in `cargo test`."""
    done = endings.run("test", "--", *words)
    assert done.returncode == 0, done.stderr
    assert names_of(last_run(endings)) == expected


def test_ignored_tests(endings: FrontEnd) -> None:
    endings.run("test", "--", "-p", "ways", "--test", "ends", "--", "is_")
    ignored = [test for test in last_run(endings).tests if test.reason is not None]
    assert [(test.binary, test.name, test.reason) for test in ignored] == [
        ("ways::ends", "is_ignored", "ignored")
    ]
    endings.run("test", "--", "-p", "ways", "--test", "ends", "--", "--include-ignored", "is_ig")
    (test,) = last_run(endings).tests
    assert test.attempts[0].result is Result.PASS


def test_a_retry(endings: FrontEnd, tmp_path: pathlib.Path) -> None:
    endings.environment["MARKER"] = str(tmp_path / "marker")
    done = endings.run("test", "--retries", "2", "--", "--test", "ends", "--", "second_try")
    assert done.returncode == 0
    (test,) = last_run(endings).tests
    assert [attempt.result for attempt in test.attempts] == [Result.FAIL, Result.PASS]
    assert "1 test in" in done.stdout and "1 passed (1 flaky)" in done.stdout


def test_fail_fast(endings: FrontEnd) -> None:
    words = ["--test-threads", "1", "--fail-fast"]
    done = endings.run("test", *words, "--", "--test", "ends", "-p", "ways", "--", "exits")
    assert done.returncode == 101
    run = last_run(endings)
    assert (run.counts.failed, run.counts.unseen, run.status) == (1, 2, "cancelled")


@pytest.mark.parametrize(
    ("command", "status", "passed"), [("echo ready", 0, 3), ("echo broken >&2; exit 3", 101, 0)]
)
def test_a_setup_script(endings: FrontEnd, command: str, status: int, passed: int) -> None:
    done = endings.run("test", "--setup", f"database={command}", "--", "--lib")
    assert done.returncode == status
    run = last_run(endings)
    assert [script.id for script in run.scripts] == ["database"]
    assert run.counts.passed == passed
    assert ("    broken\n" in done.stderr) == (status != 0)


def test_a_build_that_fails(endings: FrontEnd) -> None:
    """Cargo says why, its status is that of the front end, and nothing is recorded."""
    done = endings.run("test", "--", "-p", "ways", "--lib", "--features", "broken")
    assert (done.returncode, done.stdout) == (101, "")
    assert "error: the library can't be built" in done.stderr
    assert list(endings.runs.iterdir()) == []


def test_words_that_cargo_rejects(endings: FrontEnd) -> None:
    done = endings.run("test", "--", "--no-such-option")
    assert (done.returncode, done.stdout) == (1, "")
    assert "unexpected argument '--no-such-option'" in done.stderr


@pytest.mark.parametrize(
    ("configuration", "variable", "said"),
    [
        ('[target.x86_64-unknown-linux-gnu]\nrunner = ["RUNNER", "a list"]', None, "a list"),
        ('[target.x86_64-unknown-linux-gnu]\nrunner = "RUNNER text"', None, "text"),
        ('[target.\'cfg(unix)\']\nrunner = ["RUNNER", "cfg"]', None, "cfg"),
        ("[target.'cfg(windows)']\nrunner = \"none\"", "RUNNER variable", "variable"),
        ('[target.x86_64-unknown-linux-gnu]\nrunner = "none"', "RUNNER above", "above"),
        ('[target.x86_64-unknown-linux-gnu]\nrunner = ["./bin/runner", "near"]', None, "near"),
    ],
)
def test_the_users_own_runner(
    endings: FrontEnd,
    tmp_path: pathlib.Path,
    configuration: str,
    variable: str | None,
    said: str,
) -> None:
    """It runs each test as it does without the front end."""
    folder = tmp_path / "workspace"
    shutil.copytree(endings.folder, folder, ignore=BUILT)
    runner = folder / "bin/runner"
    runner.parent.mkdir()
    runner.write_text(RUNNER)
    runner.chmod(0o755)
    (folder / ".cargo").mkdir()
    (folder / ".cargo/config.toml").write_text(configuration.replace("RUNNER", str(runner)))
    through = tmp_path / "through"
    own = {"THROUGH": str(through), "CARGO_TARGET_DIR": str(endings.folder / "target")}
    if variable:
        own[VARIABLE] = variable.replace("RUNNER", str(runner))
    chained = FrontEnd(folder, {**endings.environment, **own})
    done = chained.run("test", "--", "--lib", "--", "stable")
    assert done.returncode == 0, done.stderr
    assert "1 passed" in done.stdout
    assert set(through.read_text().splitlines()) == {f"through {said}"}


def test_what_failed_runs_again(endings: FrontEnd) -> None:
    """The tests and the targets that failed by their names run again, and no other."""
    words = ["-p", "ways", "--test", "ends", "--doc"][:4]
    endings.run("test", "--", *words, "--", "exits", "--skip", "101")
    done = endings.run("again")
    assert done.returncode == 101
    run = last_run(endings)
    assert names_of(run) == {"ways::ends": ["exits_with_0", "exits_with_7"]}
    assert run.cli_args[:2] == ("rezovamy-runs", "again")


def test_doctests_run_again(endings: FrontEnd) -> None:
    assert endings.run("test", "--", "--doc").returncode == 101
    assert endings.run("again").returncode == 101
    assert names_of(last_run(endings)) == {"ways::doc/ways": ["ways"]}


def test_failures_are_told_where_nothing_can_be_recorded(endings: FrontEnd) -> None:
    endings.environment["REZOVAMY"] = "/bin/false"
    done = endings.run("test", "--", "--test", "ends", "--", "fails")
    assert done.returncode == 101
    assert "one is not two" in done.stderr
    assert "the tests failed, and besides: " in done.stderr
