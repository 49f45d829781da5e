"""What signals do to a run, and that nobody is left whoever is killed."""

from __future__ import annotations

import contextlib
import os
import pathlib
import signal
import subprocess
import sys
import threading
import time
import uuid
from collections.abc import Callable, Iterator

import pytest

from tests import FRONT
from tests.stopped_runs import is_stopped

LONGEST_WAIT = 30.0
# How long the processes of a run that was killed have to go.
MOMENT = 3.0
# A test that doesn't end by itself, one that doesn't on request, and one with a process in a
# session of its own whose parents have gone.
SLEEPS = "sleep 60"
STUBBORN = "trap '' INT TERM HUP; sleep 60 & sleep 60; sleep 60"
DAEMON = "setsid sh -c 'trap \"\" TERM; sleep 60 & sleep 60' > /dev/null 2>&1 & sleep 60"


class GuardedRun:
    """A run in processes of its own, which are known by a mark in their environment."""

    def __init__(self, *words: str) -> None:
        self._mark = f"REZOVAMY_TEST_MARK={uuid.uuid4()}"
        name, value = self._mark.split("=")
        self.process = subprocess.Popen(
            [sys.executable, "-m", "tests.guarded_run", *words],
            env={
                **os.environ,
                name: value,
                "PYTHONPATH": f"{FRONT}:{FRONT / 'src'}",
            },
            stdout=subprocess.PIPE,
            text=True,
            process_group=0,
        )
        # A run that hangs fails its test, since its output ends here.
        self.limit = threading.Timer(LONGEST_WAIT, self.kill_all)
        self.limit.start()
        self.lines: list[str] = []
        self.worker = int(self.line("worker ").split()[1])

    def line(self, begin: str) -> str:
        """Wait for a line that begins so, and return it."""
        assert self.process.stdout
        for line in self.process.stdout:
            self.lines.append(line.rstrip("\n"))
            if line.startswith(begin):
                return self.lines[-1]
        raise AssertionError(f"{begin} isn't in {self.lines}")

    def rest(self) -> list[str]:
        """Wait for the end, and return the lines that came since the last one."""
        assert self.process.stdout
        lines = [line.rstrip("\n") for line in self.process.stdout]
        self.process.wait(LONGEST_WAIT)
        return lines

    def processes(self) -> dict[int, str]:
        """Return the command lines of the run's processes that haven't ended, by their ids."""
        found = {}
        for folder in pathlib.Path("/proc").glob("[0-9]*"):
            try:
                if self._mark.encode() in (folder / "environ").read_bytes().split(b"\0"):
                    words = (folder / "cmdline").read_text().split("\0")
                    found[int(folder.name)] = " ".join(words).strip()
            except OSError:
                continue
        return found

    def alive(self) -> list[str]:
        """Return the command lines of the processes that haven't ended."""
        return list(self.processes().values())

    def kill_all(self) -> None:
        """Kill the processes that haven't ended."""
        for process in self.processes():
            with contextlib.suppress(ProcessLookupError):
                os.kill(process, signal.SIGKILL)

    def wait_for(self, holds: Callable[[], bool], longest: float = LONGEST_WAIT) -> None:
        """Wait until something holds."""
        deadline = time.monotonic() + longest
        while not holds():
            assert time.monotonic() < deadline, self.alive()
            time.sleep(0.02)

    def assert_nobody_is_left(self) -> None:
        """Wait for all processes to go, but no longer than a moment."""
        self.wait_for(lambda: not self.alive(), MOMENT)


@pytest.fixture
def guarded_run() -> Iterator[Callable[..., GuardedRun]]:
    """Return what starts a run, and kill what is left of it after the test."""
    runs: list[GuardedRun] = []

    def start(*words: str) -> GuardedRun:
        runs.append(GuardedRun(*words))
        return runs[-1]

    yield start
    for run in runs:
        run.limit.cancel()
        run.kill_all()
        run.process.wait()
        if run.process.stdout:
            run.process.stdout.close()


Start = Callable[..., GuardedRun]


def test_a_run_that_ends_by_itself(guarded_run: Start) -> None:
    """Its status is that of the work."""
    run = guarded_run("exit 0")
    run.line("started")
    *_, passed, finished, status = run.rest()
    assert passed.startswith("passed 0 None")
    assert (finished, status) == ("finished 0", "status 5")
    run.assert_nobody_is_left()


def test_what_tests_leave_is_killed_at_the_end(guarded_run: Start) -> None:
    """Also what made a session of its own."""
    run = guarded_run(DAEMON.replace("& sleep 60", "&"), "sleep 0.2")
    run.line("finished")
    assert run.lines[-1] in ("finished 1", "finished 2")
    run.assert_nobody_is_left()


@pytest.mark.parametrize(
    "number, reason, passed_on",
    [
        (signal.SIGINT, "interrupt", signal.SIGINT),
        (signal.SIGTERM, "signal", signal.SIGTERM),
        (signal.SIGHUP, "signal", signal.SIGTERM),
    ],
)
def test_a_signal_cancels_the_run(
    guarded_run: Start, number: int, reason: str, passed_on: int
) -> None:
    """What runs is asked to end, and what doesn't is killed. Nothing more starts."""
    run = guarded_run(SLEEPS, STUBBORN, "never")
    run.line("started sleep")
    run.line("started trap")
    time.sleep(0.3)
    run.process.send_signal(number)
    lines = run.rest()
    assert lines[0] == f"cancelled {reason}"
    assert lines[1].startswith(f"cancelled None {passed_on:d} ")
    assert lines[1].endswith(SLEEPS)
    assert lines[2].startswith(f"cancelled None {signal.SIGKILL:d} ")
    assert lines[2].endswith(STUBBORN)
    assert lines[3].startswith("finished")
    assert lines[4:] == ["status 5"]
    run.assert_nobody_is_left()


def test_a_second_signal_kills(guarded_run: Start) -> None:
    """It doesn't wait for the grace."""
    run = guarded_run(STUBBORN, "patient")
    run.line("started")
    time.sleep(0.3)
    run.process.send_signal(signal.SIGINT)
    run.line("cancelled interrupt")
    begin = time.monotonic()
    run.process.send_signal(signal.SIGINT)
    lines = run.rest()
    assert time.monotonic() - begin < 30
    assert lines[0] == "cancelled second-signal"
    assert lines[1].startswith(f"cancelled None {signal.SIGKILL:d} ")


def test_a_test_may_end_well_after_the_signal(guarded_run: Start) -> None:
    """It passed, and so is told."""
    run = guarded_run("trap 'exit 0' INT; while :; do sleep 0.01; done", "exit 101")
    run.line("failed 101")
    run.process.send_signal(signal.SIGINT)
    assert run.rest()[1].startswith("passed 0 None ")


def test_a_signal_ends_a_build(guarded_run: Start) -> None:
    """No test starts after it."""
    run = guarded_run("build", "echo ready; sleep 60", "sleep 1")
    run.wait_for(lambda: "sleep 60" in run.alive())
    run.process.send_signal(signal.SIGINT)
    run.line(f"built None {signal.SIGINT:d} interrupt")
    run.process.kill()
    run.assert_nobody_is_left()


def test_what_a_build_leaves_goes_on_to_its_end(guarded_run: Start) -> None:
    """As a server of a compiler, which is no test's."""
    run = guarded_run("build", "setsid sleep 61 > /dev/null 2>&1 &", "exit 0")
    assert run.rest()[-2:] == ["finished 0", "status 5"]
    assert run.alive() == ["sleep 61"]


def test_a_pause_is_told_and_counts_for_no_test(guarded_run: Start) -> None:
    """The processes stop, and their timeouts move."""
    run = guarded_run("sleep 2.2; exit 3")
    run.line("started")
    time.sleep(0.5)
    run.process.send_signal(signal.SIGTSTP)
    run.line("paused")
    run.wait_for(lambda: is_stopped(run.process.pid) and is_stopped(run.worker))
    time.sleep(2.5)
    run.process.send_signal(signal.SIGCONT)
    continued, failed, *_ = run.rest()
    assert continued == "continued"
    verdict, status, _, elapsed, *_ = failed.split()
    # The sleep itself isn't longer by the pause: what it waits for is an instant.
    assert (verdict, status) == ("failed", "3")
    assert int(elapsed) < 3 * 10**9


def test_a_run_that_is_told_to_go_on_at_once_goes_on(guarded_run: Start) -> None:
    """Whatever it does just then: otherwise it would wait for another signal."""
    run = guarded_run("busy", "sleep 2; exit 3")
    run.line("started")
    run.process.send_signal(signal.SIGTSTP)
    time.sleep(0.1)
    run.process.send_signal(signal.SIGCONT)
    time.sleep(0.7)
    run.process.send_signal(signal.SIGTSTP)
    run.line("paused")
    run.process.send_signal(signal.SIGCONT)
    continued, failed, *_ = run.rest()
    assert continued == "continued"
    assert failed.startswith("failed 3 ")


def test_many_pauses_of_no_length(guarded_run: Start) -> None:
    """The last signal counts."""
    run = guarded_run("sleep 0.5")
    run.line("started")
    for _ in range(50):
        run.process.send_signal(signal.SIGTSTP)
        run.process.send_signal(signal.SIGCONT)
    assert run.rest()[-1] == "status 5"


@pytest.mark.parametrize("victim", ["first", "worker", "group"])
@pytest.mark.parametrize("words", [(SLEEPS, STUBBORN), (DAEMON, DAEMON), ("build", DAEMON)])
def test_nobody_is_left_after_a_kill(
    guarded_run: Start, victim: str, words: tuple[str, ...]
) -> None:
    """Whichever process is killed, and whatever the tests have started."""
    run = guarded_run(*words)
    run.wait_for(lambda: run.alive().count("sleep 60") >= 3)
    time.sleep(0.2)
    if victim == "group":
        os.killpg(run.process.pid, signal.SIGKILL)
    else:
        os.kill(run.worker if victim == "worker" else run.process.pid, signal.SIGKILL)
    run.assert_nobody_is_left()
    if victim == "worker":
        assert run.rest()[-1].endswith("status -9")


def test_nobody_is_left_after_a_kill_in_a_pause(guarded_run: Start) -> None:
    """All of them are stopped then."""
    run = guarded_run(SLEEPS, DAEMON)
    run.line("started setsid")
    time.sleep(0.2)
    run.process.send_signal(signal.SIGTSTP)
    run.wait_for(lambda: is_stopped(run.process.pid))
    run.process.kill()
    run.assert_nobody_is_left()


def test_nobody_is_left_while_nobody_reads(guarded_run: Start) -> None:
    """The worker waits for its standard output to be read then."""
    run = guarded_run(SLEEPS, "blocked")
    time.sleep(0.5)
    run.process.kill()
    run.assert_nobody_is_left()


def test_nobody_is_left_after_a_test_that_kills_the_worker(guarded_run: Start) -> None:
    """It is its parent."""
    run = guarded_run(DAEMON, "kill -KILL $PPID; sleep 60")
    assert run.rest()[-1].endswith("status -9")
    run.assert_nobody_is_left()
