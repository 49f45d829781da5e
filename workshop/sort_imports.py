"""Puts the imports of proof files and the `ghost use` lines of source files into one order.

    python3 -m workshop.sort_imports            prints each file whose imports are not in order
    python3 -m workshop.sort_imports --write    puts them in order

Imports that stand one below the other are a block. In a block those of the standard library come
first, then those of other libraries, then those of the crates of this repository from the lowest
up, each group in the order of their paths. Imports of one path stay in the order in which they
stand. The status is 1 where a file was printed.
"""

from __future__ import annotations

import re
import sys

from rezovamy_runs.command_line import command_line

from workshop import TOP

IMPORT = re.compile(r"\s*(?:ghost )?use(?: Rattle\.|$)")
# The path of an import, with the brace before its names.
PATH = re.compile(r"(?:ghost )?use Rattle\.([^\s{]+\{?)")


def layers() -> list[str]:
    """Returns the crates of the repository, in the order of crates.txt: the lowest first."""
    lines = (TOP / "crates.txt").read_text().splitlines()
    return [line.split(":")[0] for line in lines if line and not line.startswith("#")]


def joined(lines: list[str]) -> str:
    return " ".join(line.strip() for line in lines)


def import_length(lines: list[str]) -> int:
    """Returns how many lines the import has with which the lines begin, 0 where there is none."""
    if not lines or not IMPORT.match(lines[0]):
        return 0
    length = 1
    for line in lines[1:]:
        text = joined(lines[:length])
        if "}" in text or ("{" not in text and not line.lstrip().startswith(("Rattle.", "as "))):
            break
        length += 1
    return length


def key(lines: list[str], crates: list[str]) -> tuple[int, str, str]:
    """Returns what an import is sorted by."""
    found = PATH.match(joined(lines))
    assert found, lines
    path = found.group(1)
    crate = path.split(".")[0]
    rank = 0 if crate == "std" else 2 + crates.index(crate) if crate in crates else 1
    return rank, path.lower(), path


def in_order(text: str, crates: list[str]) -> str:
    """Returns the text with each block of imports in order."""
    lines, done = text.split("\n"), []
    while lines:
        block = []
        while length := import_length(lines):
            block.append(lines[:length])
            lines = lines[length:]
        done += [
            line for each in sorted(block, key=lambda each: key(each, crates)) for line in each
        ]
        done += lines[:1]
        lines = lines[1:]
    return "\n".join(done)


def main() -> int:
    parser = command_line(__doc__)
    parser.add_argument("--write", action="store_true", help="put the imports in order")
    write, crates, found = parser.parse_args().write, layers(), False
    for path in sorted((TOP / "crates").glob("*/*/**/*")):
        if path.suffix not in (".rt", ".antt") or path.parts[len(TOP.parts) + 2] == "out":
            continue
        text = path.read_text()
        sorted_text = in_order(text, crates)
        if sorted_text != text:
            if write:
                path.write_text(sorted_text)
            else:
                print(f"{path.relative_to(TOP)}: imports are not in order")
                found = True
    return int(found)


if __name__ == "__main__":
    sys.exit(main())
