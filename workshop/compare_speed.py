"""Measures two built programs in turns, and prints what each command took before and after as a
table.

    python3 -m workshop.compare_speed OLD NEW [--turns N] [--only WORD]

Both run the same commands on the same sessions, one after the other and each first in every other
turn: of 1,000, 10,000 and 100,000 tests, of 10,000 tests with outputs of their own, with a binary
each, and all open at once, and of 100 tests with two outputs of 1 MiB each. Each program reads the
bundles that it recorded itself. A command that only one of them knows, by its `--help`, is left
out; so is one that fails, which is said on standard error. A time is the least processor time of
eight turns, or of those of `--turns`. Memory is the most that was held in any of them; less than
Python itself holds, some 11 MB, isn't told apart. `--only` takes the rows with this word in their
session or command. The sessions lie in a temporary folder, which takes up to 3 GB.
"""

from __future__ import annotations

import collections
import dataclasses
import os
import re
import subprocess
import sys
import tempfile
from collections.abc import Collection, Iterator, Sequence
from pathlib import Path

from rezovamy_runs.command_line import command_line, demand_program, print_out, say, whole
from workshop import TOP

MAKER = [sys.executable, "-m", "workshop.make_session"]
LIMITS = ["--session-limit", "1000000000", "--read-limit", "1000000000"]
MOST_OF_SAMPLE = 10_000
HEADING = """\
| Session | Command | Before | After | After / before | Memory before | Memory after |
|---|---|---|---|---|---|---|
"""


@dataclasses.dataclass(frozen=True)
class Shape:
    """A session: its name, and the words of the tool that makes it.

    It ends its run, so that all commands take it.
    """

    name: str
    words: tuple[str, ...]

    @property
    def tests(self) -> int:
        return int(self.words[0])


SHAPES = (
    Shape("1,000 tests", ("1000",)),
    Shape("10,000 tests", ("10000",)),
    Shape("100,000 tests", ("100000",)),
    Shape("10,000, outputs of their own", ("10000", "--distinct", "200")),
    Shape("10,000, a binary each", ("10000", "--binaries", "10000")),
    Shape("10,000, all open at once", ("10000", "--slots", "10000")),
    Shape("100, outputs of 1 MiB", ("100", "--distinct", str(2**20))),
)


@dataclasses.dataclass(frozen=True)
class Command:
    """A command: what it reads, whether it writes a bundle, and its options."""

    name: str
    source: str = "bundle"
    writes: bool = False
    options: tuple[str, ...] = ()

    def words(self, shape: Shape, target: str) -> list[str]:
        """Its words for a program; the bundle that it writes goes to the target."""
        count = [str(shape.tests)] if self.name == "sample" else []
        return [self.name, *count, *([target] if self.writes else []), *LIMITS, *self.options]

    def takes(self, shape: Shape) -> bool:
        """Whether it is measured on a shape: what makes its own session only on plain ones that it
        can make.
        """
        return self.source != "nothing" or (len(shape.words) == 1 and shape.tests <= MOST_OF_SAMPLE)

    @property
    def shown(self) -> str:
        return " ".join((self.name, *self.options))


COMMANDS = (
    Command("record", "session", True),
    Command("record", "session", True, ("--message-format", "json-pretty")),
    Command("sample", "nothing", True),
    Command("info"),
    Command("trace"),
    Command("replay"),
    Command("replay", options=("--output", "skip")),
    Command("report"),
    Command("slots"),
    Command("rerun"),
    Command("view"),
    Command("upgrade", writes=True),
    Command("salvage", writes=True),
)


@dataclasses.dataclass
class Cost:
    """What a command took: the least seconds of processor time, and the most bytes of memory."""

    seconds: float = float("inf")
    memory: int = 0

    def add(self, other: Cost) -> None:
        self.seconds, self.memory = min(self.seconds, other.seconds), max(self.memory, other.memory)


def commands_of(usage: str) -> set[str]:
    """The commands that the text of `--help` lists."""
    return set(re.findall(r"^(?:Usage:|      ) rezovamy (\w+)", usage, re.M))


class Failed(Exception):
    """A command ended with another status than 0."""


class Program:
    """A built program, and the folder with what it writes."""

    def __init__(self, path: str, folder: Path) -> None:
        self.path, self.folder = os.path.abspath(path), folder
        folder.mkdir()

    def commands(self) -> set[str]:
        """The commands that it knows."""
        return commands_of(
            subprocess.run([self.path, "--help"], capture_output=True, text=True, check=True).stdout
        )

    def source(self, command: Command, session: Path) -> Path:
        """The path of what a command reads."""
        paths = {"session": session, "bundle": self.folder / "bundle", "nothing": Path(os.devnull)}
        return paths[command.source]

    def run(self, command: Command, shape: Shape, session: Path) -> Cost:
        """Runs a command to its end, and returns what it took."""
        target = "bundle" if command.source == "session" else "written"
        with open(self.source(command, session), "rb") as source, open(
            self.folder / "out", "wb"
        ) as out:
            words = [self.path, *command.words(shape, target)]
            child = subprocess.Popen(
                words, cwd=self.folder, stdin=source, stdout=out, stderr=subprocess.PIPE
            )
            assert child.stderr is not None
            with child.stderr:
                said = child.stderr.read()
            _, status, used = os.wait4(child.pid, 0)
        child.returncode = os.waitstatus_to_exitcode(status)
        if child.returncode != 0:
            raise Failed(
                f"status {child.returncode}, {said.decode(errors='replace').strip() or 'no line'}"
            )
        return Cost(used.ru_utime + used.ru_stime, used.ru_maxrss * 1024)


def compare(
    programs: Sequence[Program], command: Command, shape: Shape, session: Path, turns: int
) -> list[Cost]:
    """What a command took of each program, which run in turns."""
    costs = [Cost() for _ in programs]
    pairs = list(zip(programs, costs))
    for turn in range(turns):
        for program, cost in pairs[::-1] if turn % 2 else pairs:
            try:
                cost.add(program.run(command, shape, session))
            except Failed as fault:
                raise Failed(f"{shape.name}, {command.shown}: {program.path}: {fault}") from None
    return costs


def row(shape: Shape, command: Command, before: Cost, after: Cost) -> str:
    """A row of the table."""
    ratio = f"{after.seconds / before.seconds:.2f}" if before.seconds else "-"
    times = [f"{cost.seconds:.3f} s" for cost in (before, after)]
    memory = [f"{cost.memory / 1e6:.0f} MB" for cost in (before, after)]
    return f"| {' | '.join((shape.name, f'`{command.shown}`', *times, ratio, *memory))} |\n"


def rows_asked(known: Collection[str], word: str) -> dict[Shape, list[Command]]:
    """The commands of each shape that are measured: those that are known and have the word in their
    row.
    """
    rows = collections.defaultdict(list)
    for shape in SHAPES:
        for command in COMMANDS:
            if (
                command.name in known
                and command.takes(shape)
                and word in f"{shape.name}, {command.shown}"
            ):
                rows[shape].append(command)
    return rows


def measured(
    programs: Sequence[Program],
    shape: Shape,
    commands: Sequence[Command],
    session: Path,
    turns: int,
) -> Iterator[str]:
    """The rows of a shape, as they are measured."""
    with open(session, "wb") as file:
        subprocess.run([*MAKER, *shape.words, "--ends"], cwd=TOP, stdout=file, check=True)
    # The bundles of this session, which the other commands read.
    compare(programs, COMMANDS[0], shape, session, 1)
    for command in commands:
        try:
            yield row(shape, command, *compare(programs, command, shape, session, turns))
        except Failed as fault:
            say(f"left out: {fault}")


def main() -> None:
    parser = command_line(__doc__)
    parser.add_argument("old", metavar="OLD", help="the program as it was built before")
    parser.add_argument("new", metavar="NEW", help="the program as it is built now")
    parser.add_argument(
        "--turns", type=whole(1, 1000), default=8, metavar="N", help="how often each is run (8)"
    )
    parser.add_argument(
        "--only",
        default="",
        metavar="WORD",
        help="the rows with this word in their session or command",
    )
    asked = parser.parse_args()
    for path in (asked.old, asked.new):
        demand_program(parser, path)
    with tempfile.TemporaryDirectory() as name:
        folder = Path(name)
        programs = [
            Program(path, folder / part) for path, part in ((asked.old, "old"), (asked.new, "new"))
        ]
        rows = rows_asked(
            set.intersection(*(program.commands() for program in programs)), asked.only
        )
        if not rows:
            parser.error(f"no row has {asked.only!r} in it")
        print_out(HEADING)
        for shape, commands in rows.items():
            for line in measured(programs, shape, commands, folder / "session", asked.turns):
                print_out(line)


if __name__ == "__main__":
    try:
        main()
    except Failed as fault:
        sys.exit(f"FAULT: {fault}")
