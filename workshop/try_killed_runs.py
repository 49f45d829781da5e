"""Kills runs of the front end at random moments, and prints what is lost of them.

    python3 -m workshop.try_killed_runs [--tries N] [--seed N] [--summary] [PROGRAM]

`rezovamy-runs test` runs the tests of a copy of `examples/endings`. Its first process, its worker
or its whole group is killed by SIGKILL after a random time. Then no process of the run may be left.
Each failure that was printed has to be recorded, and `list`, `show` and `junit` have to read the
run without a word on standard error.

Nothing is printed if all is well, except for `--summary`: a line that says what was tried.
"""

from __future__ import annotations

import contextlib
import dataclasses
import json
import os
import random
import re
import shutil
import signal
import subprocess
import sys
import tempfile
import time
from collections import Counter
from pathlib import Path

from rezovamy_runs.command_line import command_line, demand_program, print_out, say, whole
from workshop import FRONT, PROGRAM, TOP

MARK = "REZOVAMY_KILLED_RUN"
TEST = ("test", "--timeout", "3", "--", "-p", "ways", "--test", "ends")
# A failure as it is printed while the run goes on.
FAILURE = re.compile(r"^(?:FAIL|ABORT|TIMEOUT) \[.*?\] ways::ends (\w+)", re.M)
VICTIMS = ("first", "worker", "group")
# In seconds: a whole run, how long it may take until it begins, and how long a process may be left.
LONGEST_RUN, LONGEST_BUILD, LONGEST_DEATH = 4.0, 300.0, 5.0
PAUSE = 0.005


class Lost(Exception):
    """Something that was printed isn't recorded, or what is recorded can't be read."""


def demand(condition: bool, what: str) -> None:
    """Raise what is lost unless something holds."""
    if not condition:
        raise Lost(what)


@dataclasses.dataclass(frozen=True)
class Killed:
    """What is left of a run: how it is listed, how many tests ended, how long processes stayed."""

    status: str
    ended: int
    seconds: float


class KilledRuns:
    """Runs in a copy of the workspace, each with a folder of runs of its own."""

    def __init__(self, program: str | Path, folder: Path) -> None:
        self._workspace, self._runs = folder / "workspace", folder / "runs"
        built = shutil.ignore_patterns("target", "Cargo.lock")
        shutil.copytree(TOP / "examples/endings", self._workspace, ignore=built)
        self._environment = {
            **os.environ,
            "REZOVAMY": os.path.abspath(program),
            "REZOVAMY_RUNS": str(self._runs),
            "CARGO_NET_OFFLINE": "true",
            MARK: str(folder),
        }

    def start(self, *words: str) -> subprocess.Popen[str]:
        """Start a command of the front end in a group of its own."""
        return subprocess.Popen(
            [sys.executable, str(FRONT / "rezovamy-runs"), *words],
            cwd=self._workspace,
            env=self._environment,
            stdout=subprocess.PIPE,
            stderr=subprocess.PIPE,
            text=True,
            process_group=0,
        )

    def output(self, *words: str) -> str:
        """Return what a command prints that has to succeed and to say nothing."""
        with self.start(*words) as process:
            out, err = process.communicate()
        demand((process.returncode, err) == (0, ""), f"{words[0]} says: {err}")
        return out

    def killed(self, victim: str, seconds: float) -> Killed:
        """Kill a run some time after it has begun, and return what is left of it."""
        shutil.rmtree(self._runs, ignore_errors=True)
        with self.start(*TEST) as process:
            self._wait_for_begin(process)
            time.sleep(seconds)
            kill(process.pid, victim)
            stayed = self._wait_for_deaths()
            _, err = process.communicate()
        return self._left(set(FAILURE.findall(err)), stayed)

    def _wait_for_begin(self, process: subprocess.Popen[str]) -> None:
        """Wait until the run has a folder."""
        until = time.monotonic() + LONGEST_BUILD
        while process.poll() is None and not list(self._runs.glob("*.live")):
            demand(time.monotonic() < until, "no run begins")
            time.sleep(PAUSE)

    def _wait_for_deaths(self) -> float:
        """Wait until no process of the run is left, and return how many seconds that took."""
        begin = time.monotonic()
        while self._is_alive():
            demand(time.monotonic() - begin < LONGEST_DEATH, "a process of the run is left")
            time.sleep(PAUSE)
        return time.monotonic() - begin

    def _is_alive(self) -> bool:
        """Tell whether a process of the run is left."""
        mark = f"{MARK}={self._environment[MARK]}\0".encode()
        for path in Path("/proc").glob("[0-9]*/environ"):
            with contextlib.suppress(OSError):
                if mark in path.read_bytes():
                    return True
        return False

    def _left(self, printed: set[str], stayed: float) -> Killed:
        """Hold what is recorded against what was printed."""
        with self.start("list", "--json") as process:
            listed = json.loads(process.communicate()[0])
        demand(len(listed) < 2, f"{len(listed)} runs are listed")
        if not listed:
            demand(not printed, "nothing is recorded of a run with failures")
            return Killed("nothing", 0, stayed)
        demand(not list(self._runs.glob("*.live")), "the folder of the run is left")
        shown = self.output("show", "--all")
        lost = printed - set(FAILURE.findall(shown))
        demand(not lost, f"{sorted(lost)} failed, and that isn't recorded")
        self.output("junit", "--to", str(self._runs / "xml"))
        [run] = listed
        return Killed(run["status"], run["passed"] + run["failed"], stayed)


def kill(first: int, victim: str) -> None:
    """Kill the first process of a run, its worker or its group, if it hasn't ended by itself."""
    with contextlib.suppress(OSError, IndexError):
        if victim == "group":
            os.killpg(first, signal.SIGKILL)
            return
        children = Path(f"/proc/{first}/task/{first}/children").read_text().split()
        os.kill(int(children[0]) if victim == "worker" else first, signal.SIGKILL)


def main() -> int:
    """Try what the words ask for, and return the status."""
    parser = command_line(__doc__)
    parser.add_argument("--tries", type=whole(1, 10**6), default=20, metavar="N")
    parser.add_argument("--seed", type=whole(0, 10**9), default=1, metavar="N")
    parser.add_argument("--summary", action="store_true")
    parser.add_argument("program", nargs="?", default=PROGRAM, metavar="PROGRAM")
    words = parser.parse_args()
    demand_program(parser, words.program)
    chosen, left = random.Random(words.seed), list[Killed]()
    with tempfile.TemporaryDirectory() as folder:
        runs = KilledRuns(words.program, Path(folder))
        try:
            for _ in range(words.tries):
                victim = chosen.choice(VICTIMS)
                longest = chosen.choice((LONGEST_RUN, LONGEST_RUN / 10))
                left.append(runs.killed(victim, chosen.random() * longest))
        except Lost as lost:
            say(f"try {len(left) + 1} of seed {words.seed}: {lost}")
            return 1
    if words.summary:
        counts = ", ".join(f"{count} {status}" for status, count in counted(left))
        ended = sum(one.ended for one in left)
        longest = max(one.seconds for one in left)
        print_out(f"{counts}; {ended} tests had ended; nobody left after {longest:.2f} s\n")
    return 0


def counted(left: list[Killed]) -> list[tuple[str, int]]:
    """Return how often each status came, in the order of the words."""
    return sorted(Counter(one.status for one in left).items())


if __name__ == "__main__":
    sys.exit(main())
