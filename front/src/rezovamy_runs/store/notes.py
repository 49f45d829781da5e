"""What a run is known by: the notes that stand beside its bundle as `RUNID.json`."""

from __future__ import annotations

import dataclasses
import enum
import json
import math
import pathlib
import re
from collections.abc import Mapping
from typing import Self

from rezovamy_runs.bundles import bundle_file
from rezovamy_runs.faults.fault import Fault
from rezovamy_runs.json_values import JsonObject, Members, WrongMember, members_of, text_of
from rezovamy_runs.store import whole_file

# The version of the JSON form. A reader takes its own version and those before it.
VERSION = 1
ENDING = ".json"
SHARD = re.compile(r"([1-9][0-9]{0,5})/([1-9][0-9]{0,5})")
# The members that are texts. A note of such a name sets the member.
TEXTS = ("project", "commit", "branch", "host", "rustc", "cargo")


class WrongNotes(Fault):
    """A file isn't the notes of a run."""


class Part(enum.StrEnum):
    """How much of the tests a run has."""

    # All tests of the workspace, or all of its shard.
    WHOLE = "whole"
    # The words of cargo or of the tests chose some.
    FILTERED = "filtered"
    # Those that haven't passed in another run.
    AGAIN = "again"
    NONE = "none"


@dataclasses.dataclass(frozen=True, order=True)
class Shard:
    """A shard of a group of runs: its number, from 1, of so many."""

    number: int
    total: int

    def __str__(self) -> str:
        """Return how it is written: `2/4`."""
        return f"{self.number}/{self.total}"

    @classmethod
    def read(cls, word: str) -> Self:
        """Return the shard that a word is; ValueError if it isn't one."""
        found = SHARD.fullmatch(word)
        if found is None or int(found[1]) > int(found[2]):
            raise ValueError(f"{word!r} is no shard: write K/N, as 2/4, with K from 1 to N")
        return cls(int(found[1]), int(found[2]))


@dataclasses.dataclass(frozen=True)
class CiJob:
    """The job of a CI that made a run: the service, the job's name, and its address."""

    service: str
    name: str | None = None
    link: str | None = None


@dataclasses.dataclass(frozen=True, kw_only=True)
class RunNotes:
    """What a run is known by. What isn't known is None."""

    command: tuple[str, ...] = ()
    project: str | None = None
    commit: str | None = None
    branch: str | None = None
    # Whether a file that git tracks was changed since the commit.
    dirty: bool | None = None
    host: str | None = None
    rustc: str | None = None
    cargo: str | None = None
    job: CiJob | None = None
    # The runs of one group, as the shards of a job, count as one run.
    group: str | None = None
    shard: Shard | None = None
    # The run of which this one ran again what hadn't passed.
    parent: str | None = None
    build_seconds: float | None = None
    part: Part = Part.WHOLE
    # Further notes by their names.
    free: Mapping[str, str] = dataclasses.field(default_factory=dict)

    def noted(self, given: Mapping[str, str]) -> RunNotes:
        """Return the notes with more of them; one that is there has the new value."""
        known = {name: value for name, value in given.items() if name in TEXTS}
        free = {name: value for name, value in given.items() if name not in TEXTS}
        return dataclasses.replace(self, **known, free={**self.free, **free})


def json_of(notes: RunNotes) -> JsonObject:
    """Return notes as a JSON object, without what isn't known."""
    texts = {name: getattr(notes, name) for name in TEXTS}
    made: JsonObject = {
        "version": VERSION,
        "command": list(notes.command),
        **texts,
        "dirty": notes.dirty,
        "job": job_json(notes.job) if notes.job else None,
        "group": notes.group,
        "shard": str(notes.shard) if notes.shard else None,
        "parent": notes.parent,
        "build-seconds": notes.build_seconds,
        "part": notes.part.value,
        "notes": dict(notes.free),
    }
    return without_unknown(made)


def job_json(job: CiJob) -> JsonObject:
    """Return the job of a CI as a JSON object."""
    return without_unknown({"service": job.service, "name": job.name, "link": job.link})


def without_unknown(members: JsonObject) -> JsonObject:
    """Return an object without the members that are None."""
    return {name: value for name, value in members.items() if value is not None}


def notes_of(data: bytes) -> RunNotes:
    """Return the notes that bytes are; WrongMember if they aren't any."""
    try:
        members = members_of(json.loads(data), "the text")
    except (RecursionError, ValueError) as error:
        raise WrongMember(f"the text is no JSON object: {error}") from error
    version = members.whole_number("version")
    if not 1 <= version <= VERSION:
        raise WrongMember(f"it is of version {version}, and {VERSION} is read here")
    return RunNotes(
        command=members.optional_texts("command"),
        project=members.optional_text("project"),
        commit=members.optional_text("commit"),
        branch=members.optional_text("branch"),
        dirty=members.truth("dirty") if members.has("dirty") else None,
        host=members.optional_text("host"),
        rustc=members.optional_text("rustc"),
        cargo=members.optional_text("cargo"),
        job=job_of(members),
        group=members.optional_text("group"),
        shard=shard_of(members),
        parent=members.optional_text("parent"),
        build_seconds=seconds_of(members),
        part=part_of(members),
        free=free_of(members),
    )


def job_of(members: Members) -> CiJob | None:
    """Return the job of a CI."""
    job = members.optional_inner("job")
    if job is None:
        return None
    return CiJob(job.text("service"), job.optional_text("name"), job.optional_text("link"))


def shard_of(members: Members) -> Shard | None:
    """Return the shard."""
    word = members.optional_text("shard")
    try:
        return Shard.read(word) if word is not None else None
    except ValueError as error:
        raise WrongMember(f"'shard': {error}") from error


def seconds_of(members: Members) -> float | None:
    """Return how long the build took, which isn't less than 0."""
    value = members.values.get("build-seconds")
    if value is None:
        return None
    if isinstance(value, int | float) and not isinstance(value, bool):
        if math.isfinite(value) and value >= 0:
            return float(value)
    raise WrongMember(f"'build-seconds' is no number of seconds: {value!r:.80}")


def part_of(members: Members) -> Part:
    """Return how much of the tests the run has."""
    word = members.text("part")
    try:
        return Part(word)
    except ValueError as error:
        known = ", ".join(Part)
        raise WrongMember(f"'part' is {word!r:.80}, and no one of {known}") from error


def free_of(members: Members) -> dict[str, str]:
    """Return the further notes."""
    notes = members.optional_inner("notes")
    values = notes.values.items() if notes else ()
    return {name: text_of(value, f"the note {name!r}") for name, value in values}


def path_beside(bundle: pathlib.Path) -> pathlib.Path:
    """Return where the notes of a bundle are."""
    return bundle_file.beside(bundle, ENDING)


def read(path: pathlib.Path) -> RunNotes | None:
    """Return the notes in a file, None if it isn't there; WrongNotes if they can't be read."""
    try:
        return notes_of(path.read_bytes())
    except FileNotFoundError:
        return None
    except OSError as error:
        said = f"can't be read: {error.strerror or error}; give access, or remove it"
        raise WrongNotes(f"{path} {said}") from error
    except WrongMember as error:
        said = f"isn't the notes of a run: {error}; remove it, and the run stays"
        raise WrongNotes(f"{path} {said}") from error


def write(notes: RunNotes, path: pathlib.Path) -> None:
    """Write notes into a file, which is there whole or unchanged."""
    text = json.dumps(json_of(notes), ensure_ascii=False, indent=1)
    aside = whole_file.made_aside(path, path.name)
    with whole_file.becoming(path, aside):
        aside.write_bytes(f"{text}\n".encode("utf-8", "backslashreplace"))
