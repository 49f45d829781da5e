"""Counts the tests of runs that count as one, each test once.

That needs a look at their tests, so the counts are kept in the user's cache folder, for as long as
the files of these runs stay the same.
"""

from __future__ import annotations

import contextlib
import dataclasses
import json
import pathlib
from collections.abc import Mapping, Sequence

from rezovamy_runs.bundles import bundle
from rezovamy_runs.faults.fault import Fault
from rezovamy_runs.json_values import JsonObject
from rezovamy_runs.model import Counts, Summary
from rezovamy_runs.store import groups, summaries, whole_file
from rezovamy_runs.store.as_one import Parts

ENDING = ".joined.json"
VERSION = 1


@dataclasses.dataclass(frozen=True)
class Together:
    """Runs that count as one, and which of them ran again something of others."""

    runs: Sequence[Summary]
    parts: Parts

    @property
    def stamp(self) -> str:
        """Return what tells whether their files, and what they are to each other, stay the same."""
        files = [f"{run.id} {summaries.stamp_of(run.bundle)}" for run in self.runs]
        return json.dumps([*sorted(files), self.parts.chains, self.parts.lone])


def of_all(folder: pathlib.Path, wanted: Mapping[str, Together]) -> dict[str, Counts]:
    """Return the counts of runs of a folder by their names, without those that can't be read."""
    cache = summaries.file_of(folder) if wanted else None
    file = cache.with_suffix(ENDING) if cache else None
    kept = read_kept(file) if file else {}
    stamps = {name: together.stamp for name, together in wanted.items()}
    found: dict[str, Counts] = {}
    for name, together in wanted.items():
        of = kept.get(name)
        counts = counts_kept(of) if of and of.get("stamp") == stamps[name] else None
        counts = counts or counts_read(together)
        if counts:
            found[name] = counts
    made: dict[str, JsonObject] = {
        name: {"stamp": stamps[name], "counts": vars(of)} for name, of in found.items()
    }
    if file and made != kept:
        write(file, made)
    return found


def counts_read(together: Together) -> Counts | None:
    """Return the counts by what the bundles say, None if one can't be read."""
    with contextlib.suppress(Fault, OSError):
        runs = [bundle.read_run(run.bundle, outputs=False) for run in together.runs]
        return groups.one_run("", runs, together.parts).counts
    return None


def counts_kept(kept: JsonObject) -> Counts | None:
    """Return counts that were kept, None if they aren't any."""
    with contextlib.suppress(KeyError, TypeError):
        members = kept["counts"]
        return Counts(**members) if isinstance(members, dict) else None
    return None


def read_kept(path: pathlib.Path) -> dict[str, JsonObject]:
    """Return what a file keeps by its names, nothing if it can't be read."""
    try:
        value = json.loads(path.read_bytes())
    except (OSError, ValueError, RecursionError):
        return {}
    found = value.get("counts") if isinstance(value, dict) else None
    if not isinstance(found, dict) or value.get("version") != VERSION:
        return {}
    return {name: of for name, of in found.items() if isinstance(of, dict)}


def write(path: pathlib.Path, counts: Mapping[str, JsonObject]) -> None:
    """Keep counts by their names; where nothing can be written, nothing is kept."""
    with contextlib.suppress(OSError):
        path.parent.mkdir(parents=True, exist_ok=True)
        aside = whole_file.made_aside(path, path.name)
        with whole_file.becoming(path, aside):
            aside.write_text(json.dumps({"version": VERSION, "counts": counts}))
