"""Finds out what a run is known by before it begins."""

from __future__ import annotations

import dataclasses
import os
import pathlib
import subprocess
from collections.abc import Mapping, Sequence

from rezovamy_runs.streams.texts import without_surrogates
from rezovamy_runs.store import git_state
from rezovamy_runs.store.ci_variables import CiRun, ci_run
from rezovamy_runs.store.git_state import GitState
from rezovamy_runs.store.notes import Part, RunNotes, Shard

LONGEST_WAIT = 10


@dataclasses.dataclass(frozen=True, kw_only=True)
class Asked:
    """What the words of a command say of the run that it makes."""

    command: tuple[str, ...] = ()
    notes: Mapping[str, str] = dataclasses.field(default_factory=dict)
    group: str | None = None
    shard: Shard | None = None


@dataclasses.dataclass(frozen=True, kw_only=True)
class Machine:
    """What is known of where the run is."""

    folder: str = ""
    host: str | None = None
    rustc: str | None = None
    cargo: str | None = None
    git: GitState = GitState()
    ci: CiRun | None = None


def without_shard(asked: Asked) -> Asked:
    """Return what is asked of a run whose tests aren't split, whatever a CI says."""
    return dataclasses.replace(asked, shard=Shard(1, 1))


def shard_of(asked: Asked, machine: Machine) -> Shard | None:
    """Return the shard that the words name, or else the CI; `1/1` says that there is none."""
    shard = asked.shard or (machine.ci.shard if machine.ci else None)
    return shard if shard and shard.total > 1 else None


def notes_of(asked: Asked, machine: Machine) -> RunNotes:
    """Return what is known before the run begins.

    The group is that of the words. Only a shard takes the name of the CI's job as its group, since
    a job may make several runs.
    """
    ci, git = machine.ci, machine.git
    shard = shard_of(asked, machine)
    group = asked.group or (ci.group if ci and shard else None)
    notes = RunNotes(
        command=asked.command,
        project=(ci.project if ci else None) or machine.folder or None,
        commit=git.commit or (ci.commit if ci else None),
        branch=(ci.branch if ci else None) or git.branch,
        dirty=git.dirty,
        host=machine.host,
        rustc=machine.rustc,
        cargo=machine.cargo,
        job=ci.job if ci else None,
        group=group,
        shard=shard,
    )
    return notes.noted(asked.notes)


def part_of(notes: RunNotes, tests: int, is_chosen: bool) -> Part:
    """Return how much of the tests a run has, by its number of tests and how they were chosen."""
    if notes.parent:
        return Part.AGAIN
    if not tests and not notes.shard:
        return Part.NONE
    return Part.FILTERED if is_chosen else Part.WHOLE


def this_machine(toolchain: Sequence[str], folder: pathlib.Path) -> Machine:
    """Ask git, cargo and the compiler, all at once, and read the variables of a CI."""
    rustc = os.environ.get("RUSTC") or "rustc"
    status, cargo_version, rustc_version = answers(
        git_state.COMMAND, ("cargo", *toolchain, "-V"), (rustc, *toolchain, "-V"), folder=folder
    )
    return Machine(
        folder=without_surrogates(folder.name),
        host=os.uname().nodename,
        rustc=first_line(rustc_version),
        cargo=first_line(cargo_version),
        git=git_state.state_of(status),
        ci=ci_run(dict(os.environ)),
    )


def first_line(text: str) -> str | None:
    """Return the first line of a text, None if it is empty."""
    return next(iter(text.splitlines()), None)


def answers(*commands: Sequence[str], folder: pathlib.Path) -> list[str]:
    """Return what commands print that run at once; nothing of one that fails or takes too long."""
    started = [start(command, folder) for command in commands]
    return [answer_of(process) if process else "" for process in started]


def start(command: Sequence[str], folder: pathlib.Path) -> subprocess.Popen[bytes] | None:
    """Start a command, None if it can't be started."""
    try:
        return subprocess.Popen(
            command,
            cwd=folder,
            stdin=subprocess.DEVNULL,
            stdout=subprocess.PIPE,
            stderr=subprocess.DEVNULL,
        )
    except OSError:
        return None


def answer_of(process: subprocess.Popen[bytes]) -> str:
    """Return what a process prints, nothing if it fails or takes too long."""
    with process:
        try:
            printed, _ = process.communicate(timeout=LONGEST_WAIT)
        except subprocess.TimeoutExpired:
            process.kill()
            return ""
    return printed.decode("utf-8", "replace") if process.returncode == 0 else ""
