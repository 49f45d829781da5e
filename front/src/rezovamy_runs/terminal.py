"""What a terminal takes: colours, and as much of a line as it has columns.

On a narrow one, lines are broken between words.
"""

from __future__ import annotations

import dataclasses
import os
import re
import unicodedata
from typing import Literal, TextIO

Colour = Literal["red", "green", "yellow", "cyan", "bold", "dim"]
CODES: dict[Colour, str] = {
    "red": "31",
    "green": "32",
    "yellow": "33",
    "cyan": "36",
    "bold": "1",
    "dim": "2",
}
USUAL_WIDTH = 80
# A terminal with fewer columns breaks most lines, and would break them within words.
LEAST_WIDTH = 60
COLOUR_CODE = re.compile("\x1b\\[[0-9;]*m")
# A word with the blanks before it.
WORD = re.compile(r"\s*\S+")


def columns(text: str) -> int:
    """Return how many columns of a terminal a text takes.

    Wide characters take two, and those that stand upon others none.
    """
    return sum(
        0 if unicodedata.combining(one) else 2 if unicodedata.east_asian_width(one) in "WF" else 1
        for one in text
    )


def cut(line: str, width: int) -> str:
    """Return the line, or as much of its begin as a terminal of this width doesn't wrap."""
    if columns(line) < width:
        return line
    kept, room = 0, width - 4 - columns(line[:1])
    while room >= 0:
        kept += 1
        room -= columns(line[kept])
    return f"{line[:kept]} .."[: max(0, width - 1)]


def folded(text: str, width: int) -> str:
    """Return a text whose lines are broken between words, so that so many columns hold them.

    What is left of a line stands further to the right. A word with more columns stays whole.
    """
    return "\n".join(part for line in text.split("\n") for part in folded_line(line, width))


def folded_line(line: str, width: int) -> list[str]:
    """Return the lines into which a line is broken."""
    indent = " " * min(len(line) - len(line.lstrip(" ")) + 2, width // 3)
    lines, last = [], ""
    for word in WORD.findall(line):
        if last.strip() and columns(COLOUR_CODE.sub("", last + word)) > width:
            lines.append(last)
            last = indent + word.lstrip()
        else:
            last += word
    return [*lines, last]


def fitted(text: str, stream: TextIO | None) -> str:
    """Return a text as a stream shows it best: folded on a narrow terminal, or else as it is."""
    if stream is None or not is_terminal(stream):
        return text
    width = width_of(stream)
    return folded(text, width) if width < LEAST_WIDTH else text


def width_of(stream: TextIO) -> int:
    """Return how many columns a terminal has; `COLUMNS` stands above what it says."""
    set_width = os.environ.get("COLUMNS", "")
    if set_width.isdecimal() and int(set_width):
        return int(set_width)
    try:
        return os.get_terminal_size(stream.fileno()).columns or USUAL_WIDTH
    except (OSError, ValueError):
        return USUAL_WIDTH


def is_terminal(stream: TextIO | None) -> bool:
    """Tell whether a stream is a terminal that can erase what stands in a line."""
    return bool(stream and stream.isatty() and os.environ.get("TERM") != "dumb")


def colours(stream: TextIO | None) -> bool:
    """Tell whether a stream takes colours: it is a terminal, and nobody asked for none."""
    return is_terminal(stream) and not os.environ.get("NO_COLOR")


@dataclasses.dataclass
class Paint:
    """Colours texts, or leaves them as they are."""

    is_on: bool

    def __call__(self, colour: Colour, text: str) -> str:
        """Return a text in a colour."""
        return f"\x1b[{CODES[colour]}m{text}\x1b[0m" if self.is_on else text
