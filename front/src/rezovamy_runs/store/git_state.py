"""Says which commit and branch a working tree has, by what git answers."""

from __future__ import annotations

import dataclasses

COMMAND = (
    "git",
    "--no-optional-locks",
    "status",
    "--porcelain=v2",
    "--branch",
    "--untracked-files=no",
)
COMMIT, BRANCH = "# branch.oid ", "# branch.head "
NO_COMMIT, NO_BRANCH = "(initial)", "(detached)"


@dataclasses.dataclass(frozen=True)
class GitState:
    """The commit and the branch of a tree, and whether a tracked file was changed."""

    commit: str | None = None
    branch: str | None = None
    dirty: bool | None = None


def state_of(status: str) -> GitState:
    """Return the state that `git status --porcelain=v2 --branch` prints."""
    lines = status.splitlines()
    if not any(line.startswith(COMMIT) for line in lines):
        return GitState()
    return GitState(
        said(lines, COMMIT, NO_COMMIT),
        said(lines, BRANCH, NO_BRANCH),
        any(line and not line.startswith("#") for line in lines),
    )


def said(lines: list[str], beginning: str, none: str) -> str | None:
    """Return what stands behind the beginning of a line; `none` is a word that means nothing."""
    found = next((line for line in lines if line.startswith(beginning)), beginning + none)
    value = found.removeprefix(beginning)
    return None if value == none else value
