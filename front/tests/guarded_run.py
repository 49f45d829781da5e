"""Runs tests in a guarded process, and prints a line for each event: `python -m` this module.

The words are `build` and a shell script to run first, `blocked` to write without end to standard
output after the first start, `busy` to do nothing for a moment after each event, `patient` to give
tests a minute to end after a signal, and shell scripts, which are the tests.
"""

from __future__ import annotations

import os
import sys
import time

from rezovamy_runs.processes.command import run_command
from rezovamy_runs.processes.guard import guarded
from rezovamy_runs.processes.jobs import (
    MILLISECOND,
    Cancelled,
    Continued,
    Ended,
    Event,
    Finished,
    Paused,
    Settings,
    Started,
)
from rezovamy_runs.processes.loop import Loop
from rezovamy_runs.processes.run import Run
from tests.process_runs import program, shell


def line_of(event: Event) -> str | None:
    """Return what is printed of an event."""
    match event:
        case Started(job):
            return f"started {job.test_name}"
        case Ended(job, ending=ending):
            ended = ending.exit or (None, None)
            return f"{ending.verdict} {ended[0]} {ended[1]} {ending.elapsed} {job.test_name}"
        case Paused():
            return "paused"
        case Continued():
            return "continued"
        case Cancelled(reason):
            return f"cancelled {reason}"
        case Finished(killed):
            return f"finished {killed}"
        case _:
            return None


def work() -> int:
    """Do what the words say."""
    words = sys.argv[1:]
    print(f"worker {os.getpid()}", flush=True)
    grace = 60_000 if "patient" in words else 500
    settings = Settings(2, timeout=3000 * MILLISECOND, cancel_grace=grace * MILLISECOND)
    with Loop() as loop:
        if words[0] == "build":
            end = run_command(loop, program("sh", "-c", words[1]), lambda _: None)
            print(f"built {end.exit.status} {end.exit.signal} {end.cancelled}", flush=True)
            words = words[2:]
        jobs = [shell(word) for word in words if word not in ("blocked", "busy", "patient")]
        for event in Run(loop, jobs, settings):
            line = line_of(event)
            if line:
                print(line, flush=True)
            if line and "busy" in words:
                time.sleep(0.5)
            if "blocked" in words and isinstance(event, Started):
                while True:
                    print("x" * 1000)
    return 5


if __name__ == "__main__":
    status = guarded(work)
    print(f"status {status}", flush=True)
