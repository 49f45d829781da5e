"""Keeps what is known of the runs of a folder without a look at their tests, in one file.

The file is in the user's cache folder. It has what the program said of each bundle, for as long as
the bundle's file stays the same. If it is lost or damaged, the program is asked again.
"""

from __future__ import annotations

import concurrent.futures
import contextlib
import dataclasses
import json
import os
import pathlib
from collections.abc import Callable, Mapping

from rezovamy_runs.bundles import bundle, bundle_file
from rezovamy_runs.faults.fault import Fault
from rezovamy_runs.json_values import JsonObject
from rezovamy_runs.model import Counts, Status, Summary
from rezovamy_runs.store import whole_file
from rezovamy_runs.store.location import name_of

CACHE = "rezovamy"
VERSION = 1
# If so many bundles have to be read, somebody may wonder what takes so long.
MANY = 50

# What is known of a run, why its bundle can't be read, or None if the bundle is gone.
Read = Summary | Fault | None


def of_all(paths: Mapping[str, pathlib.Path], say: Callable[[str], object]) -> dict[str, Read]:
    """Return what is known of the runs of a folder, by the paths of their bundles."""
    file = file_of(next((path.parent for path in paths.values()), None))
    kept = read_kept(file) if file else {}
    stamps = {run_id: stamp_of(path) for run_id, path in paths.items()}
    found: dict[str, Read] = {}
    for run_id, path in paths.items():
        if stamps[run_id] and kept.get(run_id, {}).get("stamp") == stamps[run_id]:
            with contextlib.suppress(KeyError, TypeError, ValueError):
                found[run_id] = summary_of(kept[run_id], path)
    new = {run_id: path for run_id, path in paths.items() if run_id not in found}
    if len(new) >= MANY:
        say(f"rezovamy-runs: reading {len(new)} runs for the first time")
    read = read_all(new)
    found |= read
    if file and any(isinstance(one, Summary) for one in read.values()):
        write(file, {run_id: (stamps[run_id], found[run_id]) for run_id in paths})
    return {run_id: found[run_id] for run_id in paths}


def file_of(folder: pathlib.Path | None) -> pathlib.Path | None:
    """Return the file that keeps what is known of a folder, None if no cache folder is known.

    The user's cache folder is that of the XDG Base Directory standard.
    """
    named = pathlib.Path(os.environ.get("XDG_CACHE_HOME", ""))
    if folder is None or not (named.is_absolute() or os.environ.get("HOME")):
        return None
    cache = named if named.is_absolute() else pathlib.Path(os.environ["HOME"], ".cache")
    return cache / CACHE / f"{name_of(folder)}.json"


def read_all(paths: Mapping[str, pathlib.Path]) -> dict[str, Read]:
    """Ask the program for each bundle, for several at once."""
    with concurrent.futures.ThreadPoolExecutor(len(os.sched_getaffinity(0))) as pool:
        return dict(zip(paths, pool.map(read_one, paths.values())))


def read_one(path: pathlib.Path) -> Read:
    """Ask the program for a bundle."""
    try:
        return bundle.read_summary(path)
    except FileNotFoundError:
        return None
    except Fault as fault:
        return fault


def stamp_of(path: pathlib.Path) -> str:
    """Return what tells whether a file is still the same, nothing if it is gone."""
    try:
        found = path.stat()
    except FileNotFoundError:
        return ""
    return f"{bundle_file.is_named_so(path.name):d}-{found.st_size}-{found.st_mtime_ns}"


def read_kept(path: pathlib.Path) -> dict[str, JsonObject]:
    """Return what a file keeps of each run, nothing if it can't be read."""
    try:
        value = json.loads(path.read_bytes())
    except (OSError, ValueError, RecursionError):
        return {}
    if not isinstance(value, dict) or value.get("version") != VERSION:
        return {}
    runs = value.get("runs")
    return {one: of for one, of in runs.items() if isinstance(of, dict)} if runs else {}


def summary_of(kept: Mapping[str, object], path: pathlib.Path) -> Summary:
    """Return a summary that was kept."""
    members = kept["summary"]
    if not isinstance(members, dict):
        raise TypeError("no object")
    changed = {
        "bundle": path,
        "status": Status(members["status"]),
        "counts": Counts(**members["counts"]),
        "cli_args": tuple(members["cli_args"]),
    }
    return Summary(**{**members, **changed})


def write(path: pathlib.Path, read: Mapping[str, tuple[str, Read]]) -> None:
    """Keep what is known of each run; where nothing can be written, nothing is kept."""
    runs = {
        run_id: {"stamp": stamp, "summary": members_of(one)}
        for run_id, (stamp, one) in read.items()
        if isinstance(one, Summary)
    }
    with contextlib.suppress(OSError):
        path.parent.mkdir(parents=True, exist_ok=True)
        aside = whole_file.made_aside(path, path.name)
        with whole_file.becoming(path, aside):
            aside.write_text(json.dumps({"version": VERSION, "runs": runs}))


def members_of(summary: Summary) -> JsonObject:
    """Return the members of a summary as JSON; where its bundle is, is known by its file."""
    members = dataclasses.asdict(summary)
    del members["bundle"]
    return members
