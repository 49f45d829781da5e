"""Holds the pages to plain English: short sentences, without words that a reader has to decode.

    python3 -m workshop.check_english

It prints each sentence of more than 25 words and each word of `OBSCURE` as `FILE:LINE: WHAT`.
Fenced blocks don't count. A code span counts as one word of a sentence, and as none in a table. Of
`--help` and of what the front end says of a fault line it prints the obscure words alone, by the
command or the line. The status is 1 if anything was found.
"""

from __future__ import annotations

import itertools
import re
import sys
from collections.abc import Iterator, Mapping, Sequence
from dataclasses import dataclass
from pathlib import Path

from rezovamy_runs.command_line import command_line
from rezovamy_runs.faults.sentences import PHRASES, SENTENCES
from rezovamy_runs.manuals.programs import programs
from rezovamy_runs.manuals.tables import Program

from workshop import TOP
from workshop.check_width import prose_lines

LONGEST_SENTENCE = 25

CODE_SPAN = re.compile(r"(`+)(?!`).+?(?<!`)\1(?!`)", re.S)
SENTENCE = re.compile(r"\S.*?(?:[.!?][)\]*_\"]*(?=\s|$)|$)", re.S)
WORD = re.compile(r"\S*\w\S*")
TABLE_ROW, HEADING = re.compile(r" *\|"), re.compile(r"#+ ")
# What begins a block of its own, also right below another one.
BEGINNING = re.compile(rf"{TABLE_ROW.pattern}|{HEADING.pattern}| *(?:[-*]|\d+\.) ")
OBSCURE = re.compile(
    r"""\b(?:
    wants?\ of\ memory | for\ the\ cause | exactly\ where
    | (?<!there\ )(?:is|are)\ no(?!\ longer|\ more) | has\ no\ \w+\ where
    | the\ begins?(?!\ (?:and\ end\ )?events?)
    | anew | so\ many | of\ which | by\ a\ call | as\ it\ was | those\ that
    | what\ becomes\ of | (?:object|input|stream|sink|source)\ faults | faults?\ of\ the\ outside
    | takes | gives | hands?\ on | lets\ go | is\ heard | proper\ prefix | changes\ nothing
    )\b""",
    re.I | re.X,
)


@dataclass(frozen=True)
class Block:
    """Holds the prose of a paragraph, a list item or a table's cell, without its code spans."""

    line: int
    text: str

    def line_at(self, position: int) -> int:
        """Return the number of the line on which a position of the text stands."""
        return self.line + self.text.count("\n", 0, position)


@dataclass(frozen=True)
class Finding:
    """Holds a sentence or a word that is found in a page, and the line where it begins."""

    line: int
    what: str


def code_replaced(text: str, word: str) -> str:
    """Return a text with a word in place of each code span, and its lines as before."""
    return CODE_SPAN.sub(lambda span: word + "\n" * span[0].count("\n"), text)


def joined(lines: Sequence[tuple[int, str]]) -> Block:
    """Return the block that numbered lines make."""
    return Block(lines[0][0], code_replaced("\n".join(line for _, line in lines), "code"))


def row_blocks(line: int, row: str) -> Iterator[Block]:
    """Yield the cells of a table's row."""
    for cell in code_replaced(row, "").split("|"):
        yield Block(line, cell)


def blocks(page: str) -> Iterator[Block]:
    """Yield the blocks of a page in order."""
    lines: list[tuple[int, str]] = []
    for number, line in prose_lines(page):
        if lines and (not line.strip() or BEGINNING.match(line) or number != lines[-1][0] + 1):
            yield joined(lines)
            lines = []
        if TABLE_ROW.match(line):
            yield from row_blocks(number, line)
        elif HEADING.match(line):
            yield joined([(number, line)])
        elif line.strip():
            lines.append((number, line))
    if lines:
        yield joined(lines)


def long_sentences(page: str) -> Iterator[Finding]:
    """Yield each sentence of a page that has too many words."""
    for block in blocks(page):
        for sentence in SENTENCE.finditer(block.text):
            words = len(WORD.findall(sentence[0]))
            if words > LONGEST_SENTENCE:
                yield Finding(block.line_at(sentence.start()), f"a sentence of {words} words")


def obscure_words(page: str) -> Iterator[Finding]:
    """Yield each word of a page that a reader has to decode."""
    for block in blocks(page):
        text = re.sub(r"\s", " ", block.text)
        for found in OBSCURE.finditer(text):
            yield Finding(block.line_at(found.start()), f"`{found[0]}`")


def faults(top: Path) -> Iterator[str]:
    """Yield all that is wrong with the pages."""
    for path in [top / "README.md", *sorted((top / "docs").rglob("*.md"))]:
        page = path.read_text(encoding="utf-8")
        for finding in itertools.chain(long_sentences(page), obscure_words(page)):
            yield f"{path.relative_to(top)}:{finding.line}: {finding.what}"


def message_faults(messages: Mapping[str, str]) -> Iterator[str]:
    """Yield the obscure words of messages, each with the name of its message."""
    for name, message in messages.items():
        yield from (f"{name}: {finding.what}" for finding in obscure_words(message))


def help_texts(program: Program, before: str = "") -> Iterator[tuple[str, str]]:
    """Yield each text of a program's `--help` with the words that it is of."""
    name = before + program.name
    yield name, program.about
    for option in program.options:
        yield f"{name} {option.names[0]}", option.help
    for operand in program.operands:
        yield f"{name} {operand.value}", operand.help
    for command in program.commands:
        yield from help_texts(command, f"{name} ")


def main() -> int:
    """Print what is wrong, and return the status."""
    command_line(__doc__).parse_args()
    helps = {name: text for program in programs() for name, text in help_texts(program)}
    lines = [*faults(TOP), *message_faults({**PHRASES, **SENTENCES, **helps})]
    print("".join(f"{line}\n" for line in lines), end="")
    return int(bool(lines))


if __name__ == "__main__":
    sys.exit(main())
