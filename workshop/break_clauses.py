"""Breaks the clauses of source files into lines of at most a hundred columns.

    python3 -m workshop.break_clauses            prints each line of a clause that is longer
    python3 -m workshop.break_clauses --write    breaks them

The status is 1 where a line was printed.

A clause is what stands in braces after `ensures`, `requires` or a `ghost` member. Where it has
premises, each of them begins a line. A line that is still too long is broken outside as many
brackets as may be, before an operator rather than before an argument. Lines that are short enough
stay as they are. `rt fmt` lays out afterwards what was broken inside of records and tuples.
"""

from __future__ import annotations

import re
import sys
from collections.abc import Iterator, Sequence

from rezovamy_runs.command_line import command_line
from workshop import TOP

COLUMNS = 100
STEP = "    "
CLAUSE = re.compile(r"^( *)(?:ensures|requires|(?:pub )?ghost (?!use\b))")
OPENING, CLOSING = "([{⟦", ")]}⟧"
# What binds less comes first.
OPERATORS = (
    ("→",),
    ("×", "⊎", "↔"),
    ("≡", "≤", "<", "≢"),
    ("++", "∷", "||", "&&", "+", "-", "*", "∸"),
)
# These stand before what they belong to.
HALVES = (":", "=", "λ", "¬", "record", "if", "then", "else", "let", "in", "{")


def depths(line: str, depth: int = 0) -> list[int]:
    """The number of open brackets before each character, and at the end.

    Brackets in texts don't count.
    """
    found, is_text = [], False
    for place, character in enumerate(line):
        found.append(depth)
        if character == '"' and line[place - 1 : place] != "\\":
            is_text = not is_text
        elif not is_text:
            depth += (character in OPENING) - (character in CLOSING)
    return [*found, depth]


def in_text(line: str, place: int) -> bool:
    return line[:place].count('"') % 2 == 1


def rank(word: str) -> int:
    """How loosely the operator that a word is binds; an argument binds most."""
    return next((number for number, words in enumerate(OPERATORS) if word in words), len(OPERATORS))


def places(line: str, depth: int) -> Iterator[tuple[int, int, int]]:
    """Where a line may be broken inside the braces of its clause: the column, the open brackets
    there, and how loosely what follows binds.
    """
    found = depths(line, depth)
    begin = len(line) - len(line.lstrip())
    for place in (match.start() for match in re.finditer(" ", line)):
        before, after = line[:place].split(" ")[-1], line[place + 1 :].split(" ")[0]
        # A line ends neither with an operator nor with a word that needs the next one, nor does it
        # begin with a closing bracket.
        is_whole = (
            rank(before) == len(OPERATORS) and before not in HALVES and after not in (":", "=", "")
        )
        is_alone = place + 1 + len(after) == len(line) and rank(after) < len(OPERATORS)
        if (
            place > begin
            and found[place]
            and is_whole
            and not is_alone
            and not in_text(line, place)
            and after[0] not in CLOSING
        ):
            yield place, found[place], rank(after)


def premises(line: str, depth: int) -> list[str]:
    """A line with a break before each premise and what follows from them, where the clause itself
    says it.
    """
    breaks = [
        place
        for place, open_brackets, binds in places(line, depth)
        if (open_brackets, binds) == (1, 0)
    ]
    pieces = [line[begin:end] for begin, end in zip([0, *breaks], [*breaks, len(line)])]
    return [pieces[0], *(piece.lstrip() for piece in pieces[1:])]


def broken(line: str, depth: int, indent: str) -> list[str]:
    """A line as lines that are short enough, where it can be broken."""
    lines = []
    while len(line) > COLUMNS:
        found = [each for each in places(line, depth) if each[0] <= COLUMNS]
        if not found:
            break
        place, depth_there, _ = min(found, key=lambda each: (each[1], each[2], -each[0]))
        lines.append(line[:place])
        line, depth = indent + line[place + 1 :], depth_there
    return [*lines, line]


def clause_lines(lines: Sequence[str]) -> list[str]:
    """The lines of a clause, each of which is short enough where it can be broken."""
    done, depth = [], 0
    for number, line in enumerate(lines):
        indent = line[: len(line) - len(line.lstrip())] + STEP * (number == 0)
        first, *others = premises(line, depth) if len(line) > COLUMNS else [line]
        for piece in [first, *(indent + other for other in others)]:
            done += broken(piece, depth, indent)
            depth = depths(piece, depth)[-1]
    return done


def clause_end(lines: Sequence[str], begin: int) -> int:
    """The number of the line after what begins in a line, where that is a clause.

    Else the line's own.
    """
    depth = 0
    for number, line in enumerate(lines[begin:] if CLAUSE.match(lines[begin]) else [], begin):
        depth = depths(line, depth)[-1]
        if depth <= 0:
            return number + 1
    return begin


def clauses(lines: Sequence[str]) -> Iterator[tuple[int, int]]:
    """The numbers of the lines with which clauses begin, and of those after them."""
    number = 0
    while number < len(lines):
        end = clause_end(lines, number)
        if end > number:
            yield number, end
        number = max(end, number + 1)


def long_lines(text: str) -> list[int]:
    """The numbers of the lines of clauses that are too long, counted from 1."""
    lines = text.split("\n")
    return [
        number + 1
        for begin, end in clauses(lines)
        for number in range(begin, end)
        if len(lines[number]) > COLUMNS
    ]


def in_columns(text: str) -> str:
    """A text with each of its clauses in lines that are short enough."""
    lines, done, last = text.split("\n"), [], 0
    for begin, end in clauses(lines):
        done += lines[last:begin] + clause_lines(lines[begin:end])
        last = end
    return "\n".join(done + lines[last:])


def main() -> int:
    parser = command_line(__doc__)
    parser.add_argument("--write", action="store_true", help="break the clauses")
    write, found = parser.parse_args().write, False
    for path in sorted((TOP / "crates").glob("*/src/**/*.rt")):
        text = path.read_text()
        if write and in_columns(text) != text:
            path.write_text(in_columns(text))
        for number in [] if write else long_lines(text):
            found = True
            print(f"{path.relative_to(TOP)}:{number}: a clause of more than {COLUMNS} columns")
    return int(found)


if __name__ == "__main__":
    sys.exit(main())
