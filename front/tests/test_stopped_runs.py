"""Real runs that are stopped at some moment: what had ended is recorded, and nobody is left."""

from __future__ import annotations

import json
import os
import pathlib
import resource
import shutil
import signal
import subprocess
import time
from xml.etree import ElementTree

import pytest

from tests import EXAMPLES, made
from tests.front_end import FrontEnd
from tests.stopped_runs import ENDS, is_at, listed, started, told, wait_until

pytestmark = [pytest.mark.cargo, pytest.mark.program]

BUILT = shutil.ignore_patterns("target", "Cargo.lock")
VICTIMS = pytest.mark.parametrize("victim", ["first", "worker", "group"])
# How long the processes of a run that was killed have to go, also on a machine that is busy.
MOMENT = 3.0
# `passes` and `passes_at_the_second_try`, `fails`, and `hangs` in one slot each.
THREE_AND_HANGS = (*ENDS, "passes", "hangs", "fails", "--test-threads=4")
WHOLE = [".bundle.gz", ".json"]
# The folder of runs on a small disk, of which a copy is left.
NO_SMALL_DISK = 77
ON_A_SMALL_DISK = """
mount -t tmpfs -o size=20k none "$REZOVAMY_RUNS" || exit 77
"$@"
status=$?
cp -r "$REZOVAMY_RUNS" "$REZOVAMY_RUNS-left"
exit $status
"""
SLOW_BUILD = 'fn main() { std::process::Command::new("sleep").arg("600").status().unwrap(); }'


@pytest.fixture(scope="module", autouse=True)
def built(workspace_of_endings: pathlib.Path) -> None:
    """Build the tests, so that those that wait for them don't wait for cargo."""
    words = ["cargo", "test", "--offline", "--no-run", "-p", "ways", "--test", "ends"]
    subprocess.run(words, cwd=workspace_of_endings, capture_output=True, check=True)


def endings_of(front_end: FrontEnd) -> list[str]:
    """Return what stands behind the ids in the folder of runs."""
    return sorted(path.name[len(made.ID) :] for path in front_end.runs.iterdir())


def only_run(front_end: FrontEnd) -> dict[str, object]:
    """Return what `list` tells of the one run."""
    [run] = listed(front_end)
    return run


def events_logged(front_end: FrontEnd) -> int:
    """Return how many events of the run that goes on are in its log."""
    return sum(log.read_text().count("\n") for log in front_end.runs.glob("*.live/run/run.log.zst"))


def setup_that_waits(front_end: FrontEnd) -> str:
    """Return a setup script that waits for the file `go` in the folder of the runs."""
    return f"--setup=wait=while ! [ -e {front_end.runs}/go ]; do sleep 0.05; done"


@VICTIMS
def test_a_run_that_is_killed(endings: FrontEnd, victim: str) -> None:
    """It goes on in `list` until then, and is stopped afterwards, with what it had."""
    with started(endings, *THREE_AND_HANGS) as run:
        wait_until(lambda: is_at(endings, passed=2, failed=1, unended=1))
        assert endings_of(endings) == [".json", ".live"]
        run.kill(victim)
        wait_until(lambda: not run.processes(), MOMENT)
    table = endings.output("list")
    assert " stopped " in table
    assert endings_of(endings) == WHOLE
    counts = told(only_run(endings), "status", "passed", "failed", "unended")
    assert counts == ("incomplete", 2, 1, 1)
    shown = endings.output("show", "--all")
    assert "    fine\n" in shown
    assert "one is not two\n" in shown
    assert "UNFINISHED ways::ends hangs\n" in shown
    assert shown.endswith("; the recording stopped before the run ended\n")


def test_a_run_in_shared_processes_that_is_killed(endings: FrontEnd) -> None:
    """It is the same as in processes of their own."""
    words = ("test", "--shared", *ENDS[1:], "passes", "hangs", "--test-threads=4")
    with started(endings, *words) as run:
        wait_until(lambda: is_at(endings, passed=2, failed=0, unended=1))
        run.kill("first")
        wait_until(lambda: not run.processes(), MOMENT)
    counts = told(only_run(endings), "status", "passed", "failed", "unended")
    assert counts == ("incomplete", 2, 0, 1)
    assert "    fine\n" in endings.output("show", "passes")


def test_the_xml_of_a_run_that_was_killed(endings: FrontEnd) -> None:
    """It has what ended, and errors for what ran and for what never started."""
    words = (*ENDS, "passes", "hangs", "exits_with_0", "--test-threads=1")
    with started(endings, *words) as run:
        run.wait_for("--exact hangs")
        run.kill("first")
    done = endings.run("junit", "--to", "xml", "--fail")
    assert (done.returncode, done.stdout) == (4, "xml/junit.xml\n")
    cases = ElementTree.parse(endings.folder / "xml/junit.xml").iter("testcase")
    broken_off = "the run was broken off (it was stopped before its end)"
    never_started = f"the test was announced, and never started; {broken_off}"
    assert {case.get("name"): case[0].get("message") for case in cases} == {
        "exits_with_0": "the process exited with status 0 before the test ended",
        "hangs": f"the test started, and no event says how it ended; {broken_off}",
        "passes": never_started,
        "passes_at_the_second_try": never_started,
        "(run)": broken_off,
    }


@VICTIMS
def test_a_build_that_is_killed(endings: FrontEnd, tmp_path: pathlib.Path, victim: str) -> None:
    """No test has begun, so there is nothing to record."""
    folder = tmp_path / "workspace"
    shutil.copytree(EXAMPLES / "endings", folder, ignore=BUILT)
    (folder / "ways/build.rs").write_text(SLOW_BUILD)
    builds = FrontEnd(folder, endings.environment)
    with started(builds, *ENDS) as run:
        run.wait_for("sleep 600")
        run.kill(victim)
        wait_until(lambda: not run.processes(), MOMENT)
    assert builds.run("list", "--json").stdout == "[]\n"
    assert endings_of(builds) == []


def test_what_the_killed_worker_leaves_is_told(endings: FrontEnd) -> None:
    with started(endings, *ENDS, "hangs") as run:
        run.wait_for("--exact hangs")
        run.kill("worker")
        out, err = run.process.communicate()
    assert (run.process.returncode, out) == (137, "")
    assert err.splitlines()[-1] == (
        "rezovamy-runs: SIGKILL ended the run: `rezovamy-runs list` has what was recorded of it"
    )


def test_a_run_within_a_time(endings: FrontEnd) -> None:
    """The signal of `timeout` cancels it."""
    words = ["timeout", "600", *endings.words(*THREE_AND_HANGS)]
    with subprocess.Popen(
        words,
        cwd=endings.folder,
        env=endings.environment,
        stdout=subprocess.DEVNULL,
        stderr=subprocess.DEVNULL,
    ) as timed:
        wait_until(lambda: is_at(endings, passed=2, failed=1, unended=1))
        # This is how the system tells it that the time is over.
        timed.send_signal(signal.SIGALRM)
    assert timed.returncode == 124
    counts = told(only_run(endings), "status", "exit-code", "passed", "failed")
    assert counts == ("cancelled", 143, 2, 2)
    assert endings_of(endings) == WHOLE


def test_a_run_that_goes_on_is_left_alone(endings: FrontEnd) -> None:
    """It isn't the last run, and can't be shown yet."""
    assert endings.run(*ENDS, "passes").returncode == 0
    ended = only_run(endings)["id"]
    with started(endings, *ENDS, "hangs") as run:
        run.wait_for("--exact hangs")
        wait_until(lambda: len(listed(endings)) == 2)
        going_on, before = listed(endings)
        assert (going_on["status"], before["id"]) == ("running", ended)
        assert endings.output("show").startswith(f"run {before['prefix']} ")
        shown = endings.run("show", str(going_on["id"]))
        assert shown.returncode == 1
        assert shown.stderr == (
            f"rezovamy-runs: run {going_on['id']} goes on: look again once it has ended; "
            "`rezovamy-runs list` shows how far it is\n"
        )
        run.process.send_signal(signal.SIGINT)
        run.process.wait()
    assert [run["status"] for run in listed(endings)] == ["cancelled", "completed"]


def test_commands_that_look_at_once(endings: FrontEnd) -> None:
    """One of them packs what was stopped, and the others wait for it."""
    with started(endings, *ENDS, "hangs") as run:
        run.wait_for("--exact hangs")
        run.kill("first")
    lists = [
        subprocess.Popen(
            endings.words("list", "--json"),
            cwd=endings.folder,
            env=endings.environment,
            stdout=subprocess.PIPE,
            stderr=subprocess.PIPE,
        )
        for _ in range(6)
    ]
    for one in lists:
        out, err = one.communicate()
        assert err == b""
        assert [found["status"] for found in json.loads(out)] == ["incomplete"]
    assert endings_of(endings) == WHOLE


def test_a_killed_recorder(endings: FrontEnd) -> None:
    """The tests go on. What was recorded until then is kept."""
    with started(endings, "test", setup_that_waits(endings), *ENDS[1:], "fails") as run:
        live = run.wait_for("rezovamy live")
        wait_until(lambda: events_logged(endings) == 2)
        time.sleep(0.2)
        os.kill(live, signal.SIGKILL)
        (endings.runs / "go").touch()
        out, err = run.process.communicate()
    assert (run.process.returncode, out) == (101, "")
    assert "one is not two\n" in err
    assert err.splitlines()[-1] == (
        "rezovamy-runs: the tests failed, and besides: rezovamy live was ended by SIGKILL: see "
        "what `ulimit -a` allows, and try it again; 2 of 6 events are kept, and "
        "`rezovamy-runs list` records these"
    )
    assert told(only_run(endings), "status", "passed", "failed") == ("incomplete", 0, 0)


def test_a_limit_on_the_length_of_files(endings: FrontEnd) -> None:
    """The failures are told, and what there was room for is kept."""
    limit = (8 << 10, resource.RLIM_INFINITY)
    done = endings.run(
        *ENDS,
        *("fails", "exits", "prints"),
        before=lambda: resource.setrlimit(resource.RLIMIT_FSIZE, limit),
    )
    assert done.returncode == 101
    assert "one is not two\n" in done.stderr
    assert done.stderr.splitlines()[-1].startswith(
        "rezovamy-runs: the tests failed, and besides: rezovamy live was ended by SIGXFSZ: "
    )
    assert only_run(endings)["status"] == "incomplete"


def test_a_full_disk(endings: FrontEnd) -> None:
    """It is the same on a file system with room for five pages."""
    endings.runs.mkdir()
    words = [
        "unshare",
        "-rm",
        "sh",
        "-c",
        ON_A_SMALL_DISK,
        "sh",
        *endings.words(*ENDS, "fails", "e"),
    ]
    done = subprocess.run(
        words, cwd=endings.folder, env=endings.environment, capture_output=True, text=True
    )
    if done.returncode == NO_SMALL_DISK:
        pytest.skip("no small file system can be made here")
    assert done.returncode == 101
    assert "one is not two\n" in done.stderr
    last = done.stderr.splitlines()[-1]
    assert last.startswith("rezovamy-runs: the tests failed, and besides: rezovamy live: ")
    assert last.endswith(" events are kept, and `rezovamy-runs list` records these")
    endings.environment["REZOVAMY_RUNS"] += "-left"
    assert only_run(endings)["status"] == "incomplete"


def test_a_bundle_without_room(endings: FrontEnd) -> None:
    """The run is recorded to its end, and the next command packs it whole."""
    # A folder in which `pack` can't write, but `live` can.
    program = pathlib.Path(endings.environment["REZOVAMY"])
    endings.use_program(f'[ "$1" = pack ] && ulimit -f 1; exec {program} "$@"')
    done = endings.run(*ENDS, "fails")
    assert done.returncode == 101
    assert "one is not two\n" in done.stderr
    assert done.stderr.splitlines()[-1] == (
        "rezovamy-runs: the tests failed, and besides: rezovamy pack was ended by SIGXFSZ: see "
        "what `ulimit -a` allows, and try it again; all of 4 events are kept, and "
        "`rezovamy-runs list` records these"
    )
    assert endings_of(endings) == [".json", ".live"]
    endings.environment["REZOVAMY"] = str(program)
    assert told(only_run(endings), "status", "failed", "exit-code") == ("completed", 1, 101)
    assert endings_of(endings) == WHOLE


def test_a_folder_that_cannot_be_written(endings: FrontEnd) -> None:
    """It is said before a test runs."""
    endings.environment["REZOVAMY_RUNS"] = "/dev/null/runs"
    done = endings.run(*ENDS, "fails")
    assert (done.returncode, done.stdout) == (1, "")
    assert done.stderr == (
        "rezovamy-runs: nothing can be written into /dev/null/runs: Not a directory; "
        "name another folder in REZOVAMY_RUNS\n"
    )


def test_an_interrupt_at_the_end(endings: FrontEnd) -> None:
    """It breaks off the wait for a disk that stands still. What was recorded by then is kept."""
    with started(endings, "test", setup_that_waits(endings), *ENDS[1:], "fails") as run:
        live = run.wait_for("rezovamy live")
        wait_until(lambda: events_logged(endings) == 2)
        os.kill(live, signal.SIGSTOP)
        (endings.runs / "go").touch()
        assert run.process.stderr
        while not run.process.stderr.readline().startswith("FAIL"):
            pass
        time.sleep(0.5)
        run.process.send_signal(signal.SIGINT)
        _, err = run.process.communicate()
        assert (run.process.returncode, err.splitlines()[-1]) == (130, "rezovamy-runs: broken off")
        os.kill(live, signal.SIGCONT)
        wait_until(lambda: not run.processes())
    assert told(only_run(endings), "status", "failed") == ("incomplete", 0)


def test_a_slow_disk_holds_up_no_test(endings: FrontEnd) -> None:
    """All events are recorded at the end."""
    program = endings.environment["REZOVAMY"]
    endings.use_program(f'[ "$1" = live ] && sleep 9; exec {program} "$@"')
    assert endings.run(*ENDS, "passes", "fails").returncode == 101
    run = only_run(endings)
    assert told(run, "status", "passed", "failed") == ("completed", 2, 1)
    seconds = run["seconds"]
    assert isinstance(seconds, float) and seconds < 8
