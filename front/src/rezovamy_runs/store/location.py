"""Says where the runs of a workspace are: in a folder of their own in the user's state folder."""

from __future__ import annotations

import dataclasses
import hashlib
import os
import pathlib
import re

from rezovamy_runs import cargo
from rezovamy_runs.faults.fault import Fault
from rezovamy_runs.json_values import Members

# The folder of all runs in the state folder.
STATE = "rezovamy"
# Where runs were kept in a target directory before.
OLDER = "rezovamy-runs"
# What marks a folder as one of files that can be made again.
TAG_FILE = "CACHEDIR.TAG"
TAG = (
    "Signature: 8a477f597d28d172789f06886806bc55\n"
    "# The target directory of cargo, which can be made again.\n"
)
# The variable of the environment that names the folder of the runs.
VARIABLE = "REZOVAMY_RUNS"
NOT_PLAIN = re.compile(r"[^\w.-]", re.A)
WORKSPACE = re.compile(r"^\s*\[workspace", re.M)


@dataclasses.dataclass(frozen=True)
class Workspace:
    """A workspace: the folder of its manifest, and its target directory.

    `source` is the pattern of links to its sources, if its manifest has one.
    """

    root: pathlib.Path
    target: pathlib.Path
    source: str | None = None


def workspace(manifest: str | None = None) -> Workspace | None:
    """Return the workspace of a manifest, or of the current folder; None if there is none.

    Cargo says it, or else the manifests.
    """
    folder = pathlib.Path(manifest).resolve().parent if manifest else pathlib.Path.cwd()
    return of_cargo(manifest) or by_manifests(folder)


def of_cargo(manifest: str | None = None) -> Workspace | None:
    """Return a workspace as cargo says it, None if it can't be asked."""
    try:
        said = cargo.metadata(manifest)
        root, target = said.text("workspace_root"), said.text("target_directory")
        return Workspace(pathlib.Path(root), pathlib.Path(target), source_of(said))
    except cargo.FAULTS:
        return None


def source_of(said: Members) -> str | None:
    """Return the `source` of the manifest's `[workspace.metadata.rezovamy]`, if it is a text.

    The only package of a workspace may have it in `[package.metadata.rezovamy]`.
    """
    found = [said, *said.inner_list("packages")]
    tables = [one.values.get("metadata") for one in (found if len(found) == 2 else found[:1])]
    settings = [table.get("rezovamy") for table in tables if isinstance(table, dict)]
    sources = [one.get("source") for one in settings if isinstance(one, dict)]
    return next((one for one in sources if isinstance(one, str)), None)


def by_manifests(folder: pathlib.Path) -> Workspace | None:
    """Return the nearest package, or the workspace above it; None if there is neither."""
    found = [place for place in (folder, *folder.parents) if (place / "Cargo.toml").is_file()]
    workspaces = [
        place
        for place in found
        if WORKSPACE.search((place / "Cargo.toml").read_text(errors="replace"))
    ]
    root = next(iter(workspaces or found), None)
    return Workspace(root, root / "target") if root else None


def named_folder() -> pathlib.Path | None:
    """Return the folder of the runs that the environment names, None where it names none."""
    named = os.environ.get(VARIABLE)
    return pathlib.Path(named) if named else None


def runs_folder(found: Workspace | None) -> pathlib.Path:
    """Return the folder of the runs of a workspace, if the environment names none."""
    if found is None:
        raise Fault(
            "no Cargo.toml is here or above: go into a workspace, "
            f"or name the folder of the runs in {VARIABLE}"
        )
    return state_folder() / STATE / name_of(found.root)


def name_of(root: pathlib.Path) -> str:
    """Return the name of a workspace's folder of runs: its own name and a hash of its path.

    So two workspaces of one name have two folders.
    """
    path = os.path.realpath(root)
    digest = hashlib.sha256(os.fsencode(path)).hexdigest()[:10]
    return f"{NOT_PLAIN.sub('_', os.path.basename(path))[:40]}-{digest}"


def state_folder() -> pathlib.Path:
    """Return the folder for what programs keep of a user, by the XDG Base Directory standard."""
    named = pathlib.Path(os.environ.get("XDG_STATE_HOME", ""))
    if named.is_absolute():
        return named
    try:
        return pathlib.Path.home() / ".local/state"
    except RuntimeError as error:
        said = f"no home folder is known: name the folder of the runs in {VARIABLE}"
        raise Fault(said) from error


def make_target(target: pathlib.Path) -> None:
    """Make a target directory if it isn't there, marked as cargo does: no backup has it then."""
    if not target.exists():
        target.mkdir(parents=True, exist_ok=True)
        (target / TAG_FILE).write_text(TAG)
