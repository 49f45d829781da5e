"""What it costs to run tests as processes: time beside `xargs`, and memory for long outputs."""

from __future__ import annotations

import itertools
import os
import pathlib
import re
import subprocess
import sys
import time
from collections.abc import Sequence

from rezovamy_runs.processes.jobs import Ended, Group, Job, Settings, Verdict
from rezovamy_runs.processes.loop import Loop
from rezovamy_runs.processes.run import Run
from tests import FRONT
from tests.process_runs import libtest, program, shell

SLOTS, TESTS, TURNS = 4, 3000, 3
LIMIT = 1 << 20
MEGABYTE = 1 << 20
# What the front end may need of memory beside the outputs.
BASE = 60 * MEGABYTE
STATUS = pathlib.Path("/proc/self/status")


# The lines of so many tests that have passed and printed so many bytes each.
SHARED = r"""
for name in $(seq 0 $(($1 - 1))); do
    echo "{ \"type\": \"test\", \"event\": \"started\", \"name\": \"$name\" }"
    printf '{ "type": "test", "name": "%s", "event": "ok", "stdout": "' $name
    head -c $2 /dev/zero | tr '\0' x
    echo '" }'
done
"""


def run_all(jobs: Sequence[Job], groups: Sequence[Group] = ()) -> None:
    """Run tests that pass."""
    with Loop() as loop:
        for event in Run(loop, jobs, Settings(SLOTS, output_limit=LIMIT), groups=groups):
            if isinstance(event, Ended):
                assert event.ending.verdict is Verdict.PASSED


def seconds_here() -> float:
    """Return how long trivial tests take."""
    jobs = [Job("alpha", str(n), program("true"), runs_tests=False) for n in range(TESTS)]
    begin = time.monotonic()
    run_all(jobs)
    return time.monotonic() - begin


def seconds_of_xargs() -> float:
    """Return how long the same processes take under `xargs`."""
    words = ["xargs", f"-P{SLOTS}", "-n1", "true"]
    numbers = "\n".join(map(str, range(TESTS)))
    begin = time.monotonic()
    subprocess.run(words, input=numbers, text=True, check=True)
    return time.monotonic() - begin


def test_trivial_tests_take_at_most_twice_as_long_as_under_xargs() -> None:
    """They are measured in turns, and the shortest of each counts."""
    turns = [(seconds_here(), seconds_of_xargs()) for _ in range(TURNS)]
    assert min(here for here, _ in turns) <= 2 * min(xargs for _, xargs in turns), turns


def peak_of(way: str, tests: int, length: int) -> int:
    """Return how much memory a process needs whose tests print so many bytes each."""
    words = [sys.executable, "-m", "tests.test_process_costs", way, str(tests), str(length)]
    paths = f"{FRONT}:{FRONT / 'src'}"
    done = subprocess.run(
        words,
        env={**os.environ, "PYTHONPATH": paths},
        stdout=subprocess.PIPE,
        check=True,
    )
    return int(done.stdout)


def test_a_long_output_needs_little_memory() -> None:
    """No more than two limits for each slot, however much the tests print."""
    for way, tests, length in itertools.product(WAYS, (1, 36), (360_000_000,)):
        assert peak_of(way, tests, length // tests) <= BASE + 2 * LIMIT * SLOTS


def alone(tests: int, length: int) -> None:
    """Run tests that print so many bytes each."""
    run_all([shell(f"head -c {length} /dev/zero; : {number}") for number in range(tests)])


def shared(tests: int, length: int) -> None:
    """Run tests that share a process, which prints the lines of libtest."""
    jobs = [libtest(str(number), "exit 1") for number in range(tests)]
    words = program("sh", "-c", SHARED, "sh", str(tests), str(length))
    run_all([], [Group(words, (), tuple(jobs), jobs[0])])


WAYS = {"alone": alone, "shared": shared}


def main(way: str, tests: int, length: int) -> None:
    """Run tests that print so many bytes each, and print the most memory that was needed."""
    WAYS[way](tests, length)
    # The usage that the system counts would have that of the process that started this one.
    (kilobytes,) = re.findall(r"^VmHWM:\s+(\d+) kB$", STATUS.read_text(), re.M)
    print(int(kilobytes) * 1024)


if __name__ == "__main__":
    main(sys.argv[1], *map(int, sys.argv[2:]))
