"""What a page says of a run besides its tests: what it is known by, and where its sources are.

Also the words by which each binary runs again.
"""

from __future__ import annotations

import dataclasses
import re
import shlex
from collections.abc import Sequence
from typing import NotRequired, TypedDict

from rezovamy_runs import formatting
from rezovamy_runs.faults.fault import Fault
from rezovamy_runs.model import Run
from rezovamy_runs.runner.rerun_plan import runs_whole, target_words
from rezovamy_runs.store.notes import Part, RunNotes
from rezovamy_runs.streams.targets import own_names

# The free note that has the pattern of links to sources.
SOURCE = "source"
SHORT_COMMIT = 12
# Nothing but these may open by a click: an address may run a script, or open a program.
WEB = re.compile(r"https?://[^\s\x00-\x1f]+")
PARTS = {
    Part.FILTERED: "some of the tests, as the words say",
    Part.AGAIN: "what hadn't passed in another run",
    Part.NONE: "no tests",
}


class PageFact(TypedDict):
    """Something that a run is known by; one that is `brief` also stands at the top."""

    name: str
    text: str
    link: NotRequired[str]
    brief: NotRequired[bool]


class PageCommand(TypedDict):
    """The words that run a binary; a test follows, unless it is `own` or all run at once."""

    words: str
    whole: NotRequired[bool]
    own: NotRequired[list[str]]


def command_of(binary: str) -> PageCommand | None:
    """Return the words that run a binary alone, None if cargo has no words for it."""
    words = target_words(binary)
    if words is None:
        return None
    made: PageCommand = {"words": f"rezovamy-runs test -- {shlex.join(words)}"}
    if runs_whole(binary, ()):
        made["whole"] = True
    else:
        made["own"] = sorted(set(own_names(binary)))
    return made


def fact(name: str, text: str | None, *, link: str | None = None, brief: bool = False) -> PageFact:
    """Return a fact; one without a text isn't shown."""
    made: PageFact = {"name": name, "text": text or ""}
    if link and WEB.fullmatch(link):
        made["link"] = link
    if brief:
        made["brief"] = True
    return made


def group_notes(notes: Sequence[RunNotes]) -> RunNotes | None:
    """Return what the runs of a group have in common, with all their hosts; None of no notes."""
    if not notes:
        return None
    hosts = ", ".join(sorted({one.host for one in notes if one.host}))
    return dataclasses.replace(notes[0], shard=None, host=hosts or None, build_seconds=None)


def commit_text(notes: RunNotes) -> str | None:
    """Return the commit, and whether files were changed since."""
    if notes.commit is None:
        return None
    return notes.commit[:SHORT_COMMIT] + (", with changes" if notes.dirty else "")


def group_text(notes: RunNotes) -> str | None:
    """Return the group, with the shard of it."""
    shard = f"shard {notes.shard}" if notes.shard else None
    return ", ".join(filter(None, [notes.group, shard])) or None


def facts_of(notes: RunNotes | None) -> list[PageFact]:
    """Return what a run is known by, in the order in which a reader asks for it."""
    if notes is None:
        return []
    job, build = notes.job, notes.build_seconds
    named = " ".join(filter(None, [job.service, job.name])) if job else None
    facts = [
        fact("Project", notes.project, brief=True),
        fact("Branch", notes.branch, brief=True),
        fact("Commit", commit_text(notes), brief=True),
        fact("CI job", named, link=job.link if job else None, brief=True),
        fact("Group", group_text(notes), brief=True),
        fact("Host", notes.host, brief=True),
        fact("Command", shlex.join(notes.command), brief=True),
        fact("Part", PARTS.get(notes.part)),
        fact("Runs again", notes.parent),
        fact("Build", formatting.duration(build) if build is not None else None, brief=True),
        fact("Rust", notes.rustc, brief=True),
        fact("Cargo", notes.cargo),
        *(fact(name, text) for name, text in notes.free.items() if name != SOURCE),
    ]
    return [one for one in facts if one["text"]]


def reruns_facts(runs: Sequence[Run]) -> list[PageFact]:
    """Return in which of some runs something ran again, nothing if none is a rerun."""
    told = [f"in run {run.id}, {formatting.moment(run.started)}" for run in runs if run.parent]
    return [fact("Ran again", "; ".join(told))] if told else []


def source_pattern(given: str | None, notes: RunNotes | None) -> str | None:
    """Return the pattern of links to sources, with the commit in it; `given` comes first."""
    pattern = given or (notes.free.get(SOURCE) if notes else None)
    if not pattern:
        return None
    if not WEB.fullmatch(pattern) or "{file}" not in pattern:
        raise Fault(
            f"the pattern of sources isn't one: {formatting.name(pattern)}; write an address "
            "with {file}, as https://host/project/blob/{commit}/{file}#L{line}"
        )
    commit = notes.commit if notes else None
    return pattern.replace("{commit}", commit or "HEAD")
