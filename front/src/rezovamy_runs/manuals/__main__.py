"""Writes the man pages of the programs, and their completions for bash, zsh and fish.

    python3 -m rezovamy_runs.manuals ~/.local

All are made of the parsers that print `--help`, but for the built program, whose words
faults/causes.py has.
"""

from __future__ import annotations

import pathlib
import sys

from rezovamy_runs.command_line import command_line, say
from rezovamy_runs.manuals import bash, fish, manual, zsh
from rezovamy_runs.manuals.programs import programs
from rezovamy_runs.manuals.tables import Program


def files(program: Program) -> dict[str, str]:
    """Return the files of a program, by their paths below the folder."""
    return {
        f"share/man/man1/{program.name}.1": manual.page(program),
        f"share/bash-completion/completions/{program.name}": bash.completion(program),
        f"share/zsh/site-functions/_{program.name}": zsh.completion(program),
        f"share/fish/vendor_completions.d/{program.name}.fish": fish.completion(program),
    }


def write(folder: pathlib.Path) -> None:
    """Write all files below a folder."""
    for program in programs():
        for name, text in files(program).items():
            path = folder / name
            path.parent.mkdir(parents=True, exist_ok=True)
            path.write_text(text, encoding="utf-8")


def main() -> int:
    """Run the program on the words of the process, and return its status."""
    parser = command_line(__doc__)
    parser.add_argument(
        "folder", type=pathlib.Path, metavar="FOLDER", help="the folder that gets `share`"
    )
    try:
        write(parser.parse_args().folder)
    except OSError as error:
        say(f"make_manuals: {error}; make room there, or name another folder")
        return 1
    return 0


if __name__ == "__main__":
    sys.exit(main())
