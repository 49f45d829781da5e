"""Holds each file of the repository to the width of its kind.

    python3 -m workshop.check_width

It prints each line that is wider, as `FILE:LINE: N columns`, and nothing where all is well. A
column is a character. `KINDS` says which width a kind has, which files are data and have none, and
which lines are free. The status is 1 where a line is too wide.
"""

from __future__ import annotations

import re
import subprocess
import sys
from collections.abc import Iterator
from dataclasses import dataclass
from fnmatch import fnmatch

from rezovamy_runs.command_line import command_line

from workshop import TOP

CODE = 100
PROSE = 200
FENCE = re.compile(r" *(?:```|~~~)")
LINK_TARGET = re.compile(r"(?<=\])\([^)\s]*\)")
# A word alone can't be broken, whatever comment it stands in.
ONE_WORD = re.compile(r"\s*(?:(?:#|--|//[/!]?|/?\*) )?\S+\s*")


@dataclass(frozen=True)
class Kind:
    """Describes files of a kind: how wide a line may be, if it isn't data, and which are free."""

    names: tuple[str, ...]
    columns: int | None
    why: str
    free: re.Pattern[str] | None = None


# The first kind that has a file's name is the file's own.
KINDS = (
    Kind(("LICENSE-*",), None, "a licence stands as it was given"),
    Kind(("*.png",), None, "a picture has no lines"),
    Kind(("dist/*",), None, "a package and its hashes stand as they were made"),
    Kind(("*.xsd",), None, "a schema stands as others wrote it"),
    Kind(("*.session", "crates/*/stdin"), None, "an event of a session stands on one line"),
    Kind(("*.json",), None, "JSON stands as a program printed it"),
    Kind(("*.edit", "crates/*/args"), None, "its format wants each text on one line"),
    Kind(("crates/*/stdout", "examples/mishaps/*.txt"), None, "output is as a program prints it"),
    Kind(
        ("*.rt",),
        CODE,
        "code, but `rt fmt` joins the lines of an attribute",
        re.compile(r" *#!?\[tactic\(.*\)\]"),
    ),
    Kind(
        ("crates.txt",),
        CODE,
        "code, but a crate stands on one line with all that it uses",
        re.compile(r"[a-z_]+(?: \S+)*: .*"),
    ),
    Kind(("*.antt", "*.rs"), CODE, "code"),
    Kind(("*.py", "*.sh", "*.toml", ".flake8"), CODE, "code"),
    Kind(("*.js", "*.css", "*.html"), CODE, "code"),
    Kind(
        ("*.md",),
        PROSE,
        "prose, but a row of a table is one line, and no link is counted",
        re.compile(r" *\|.*"),
    ),
    Kind(("*",), CODE, "code, as of scripts without an ending"),
)


def kind_of(name: str) -> Kind:
    """Return the kind of a file by its path from the top."""
    return next(kind for kind in KINDS if any(fnmatch(name, pattern) for pattern in kind.names))


def prose_lines(text: str) -> Iterator[tuple[int, str]]:
    """Yield the numbered lines of a page outside of fences, without where their links lead."""
    is_fenced = False
    for number, line in enumerate(text.split("\n"), 1):
        if FENCE.match(line):
            is_fenced = not is_fenced
        elif not is_fenced:
            yield number, LINK_TARGET.sub("", line)


def wide_lines(name: str, text: str) -> Iterator[tuple[int, int]]:
    """Yield the number of each line of a file that is too wide, and its columns."""
    kind = kind_of(name)
    if kind.columns is None:
        return
    lines = prose_lines(text) if kind.columns == PROSE else enumerate(text.split("\n"), 1)
    for number, line in lines:
        is_free = kind.free is not None and kind.free.fullmatch(line)
        if len(line) > kind.columns and not is_free and not ONE_WORD.fullmatch(line):
            yield number, len(line)


def file_names() -> list[str]:
    """Return the paths of all files that are part of the repository, or could become one."""
    words = ["git", "ls-files", "-z", "--cached", "--others", "--exclude-standard"]
    listed = subprocess.run(words, cwd=TOP, check=True, capture_output=True, text=True).stdout
    return sorted(name for name in set(listed.split("\0")) if (TOP / name).is_file())


def main() -> int:
    command_line(__doc__).parse_args()
    is_found = False
    for name in file_names():
        if kind_of(name).columns is None:
            continue
        for number, columns in wide_lines(name, (TOP / name).read_text(encoding="utf-8")):
            is_found = True
            print(f"{name}:{number}: {columns} columns")
    return int(is_found)


if __name__ == "__main__":
    sys.exit(main())
