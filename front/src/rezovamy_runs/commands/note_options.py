"""The options of `test` and `again` that say what a run is known by."""

from __future__ import annotations

import argparse
import dataclasses
import pathlib
from collections.abc import Sequence

from rezovamy_runs.command_line import matching, say
from rezovamy_runs.faults.fault import Fault
from rezovamy_runs.model import Summary
from rezovamy_runs.page.about import SOURCE
from rezovamy_runs.runner import run_facts
from rezovamy_runs.runner.run_facts import Asked
from rezovamy_runs.store.notes import RunNotes, Shard
from rezovamy_runs.store.run_folder import Store
from rezovamy_runs.streams.texts import without_surrogates


def name_and_value(word: str) -> tuple[str, str]:
    """Return the name and the value of a note."""
    name, _, value = without_surrogates(word).partition("=")
    return name, value


def shard(word: str) -> Shard:
    """Return the shard that a word names."""
    try:
        return Shard.read(word)
    except ValueError as error:
        raise argparse.ArgumentTypeError(str(error)) from error


def add_options(parser: argparse.ArgumentParser) -> None:
    """Take notes, and the group of the run."""
    parser.add_argument(
        "--note",
        type=matching(r"(?s:[^=\s]+=.*)", name_and_value),
        action="append",
        default=[],
        metavar="KEY=VALUE",
        help="note something of the run; may come more than once",
    )
    parser.add_argument(
        "--group",
        type=without_surrogates,
        metavar="NAME",
        help="count the run as one with the other runs of this group",
    )


def add_shard(parser: argparse.ArgumentParser) -> None:
    """Take which shard of the tests is run."""
    parser.add_argument(
        "--shard",
        type=shard,
        metavar="K/N",
        help="run only the tests of shard K of N (what the CI says; 1/1 runs all)",
    )


def notes(words: argparse.Namespace, runs: Store, splits: bool) -> RunNotes:
    """Return what is known of a run before it begins.

    `splits` tells that its tests can be split. A shard is then also taken of a CI's variables.
    """
    asked = Asked(
        command=tuple(without_surrogates(word) for word in words.command_line),
        notes=noted(dict(words.note), runs),
        group=words.group,
        shard=getattr(words, "shard", None),
    )
    folder = runs.workspace_root() or pathlib.Path.cwd()
    machine = run_facts.this_machine(toolchain_of(words.rest), folder)
    if not splits and asked.shard is None:
        asked = run_facts.without_shard(asked)
    made = run_facts.notes_of(asked, machine)
    if made.shard and not asked.shard and machine.ci:
        said = f"only shard {made.shard} of the tests runs, as {machine.ci.job.service} asks"
        say(f"rezovamy-runs: {said}; `--shard 1/1` runs all")
    return made


def noted(given: dict[str, str], runs: Store) -> dict[str, str]:
    """Return the notes that are given, and where the sources are if the workspace says it."""
    source = runs.source()
    return {SOURCE: source, **given} if source else given


def notes_again(words: argparse.Namespace, runs: Store, before: Summary) -> RunNotes:
    """Return what is known of a rerun before it begins. It is in the group of its parent."""
    parent = runs.notes(before.bundle)
    made = notes(words, runs, False)
    return dataclasses.replace(
        made,
        group=made.group or (parent.group if parent else None),
        shard=parent.shard if parent else None,
        parent=before.id,
    )


def refuse_shard(words: argparse.Namespace) -> None:
    """Refuse a shard of tests that can't be split."""
    if words.shard and words.shard.total > 1:
        raise Fault("--shard is for tests in processes of their own: leave out --shared", 2)


def toolchain_of(rest: Sequence[str]) -> list[str]:
    """Return the toolchain that the words of cargo name, as `+nightly`."""
    return [word for word in rest[:1] if word.startswith("+")]
