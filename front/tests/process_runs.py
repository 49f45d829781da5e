"""Runs of small programs by the runner of processes, and what they tell."""

from __future__ import annotations

import os
import pathlib
import sys
from collections.abc import Iterable, Sequence

from rezovamy_runs.processes.jobs import (
    Ended,
    Ending,
    Event,
    Group,
    Job,
    Program,
    Script,
    Settings,
    Tick,
)
from rezovamy_runs.processes.loop import Loop
from rezovamy_runs.processes.run import Run

ENVIRONMENT = dict(os.environb)
HERE = os.getcwd()


def program(*words: str, folder: pathlib.Path | str = HERE) -> Program:
    """Return a program with this process's environment."""
    return Program(words, str(folder), ENVIRONMENT)


def libtest(name: str, text: str) -> Job:
    """Return a test of a shell script in place of a binary with a log file, which is `$2`."""
    return Job("alpha", name, program("sh", "-c", text, "sh"), log_file=True)


def shell(text: str, folder: pathlib.Path | str = HERE) -> Job:
    """Return a shell script whose exit status says all. It is named as its text."""
    return Job("alpha", text, program("sh", "-c", text, folder=folder), runs_tests=False)


def python(text: str) -> Job:
    """Return a script of Python whose exit status says all."""
    return Job("alpha", text, program(sys.executable, "-c", text), runs_tests=False)


def script(name: str, text: str) -> Script:
    """Return a setup script."""
    return Script(name, program("sh", "-c", text))


def events_of(
    jobs: Iterable[Job],
    settings: Settings = Settings(4),
    scripts: Sequence[Script] = (),
    groups: Sequence[Group] = (),
) -> list[Event]:
    """Run tests, and return what was told but for the moments at which nothing happened."""
    with Loop() as loop:
        run = Run(loop, jobs, settings, scripts, groups)
        return [event for event in run if not isinstance(event, Tick)]


def endings_of(jobs: Iterable[Job], settings: Settings = Settings(4)) -> dict[str, list[Ending]]:
    """Run tests, and return how the attempts of each ended."""
    endings: dict[str, list[Ending]] = {}
    for event in events_of(jobs, settings):
        if isinstance(event, Ended):
            endings.setdefault(event.job.test_name, []).append(event.ending)
    return endings


def ending_of(job: Job, settings: Settings = Settings(1)) -> Ending:
    """Run one test once, and return how it ended."""
    [ending] = endings_of([job], settings)[job.test_name]
    return ending
