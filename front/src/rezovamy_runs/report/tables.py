"""Tables for people, and the JSON of scripts."""

from __future__ import annotations

import json
import re
from collections.abc import Container, Iterable, Sequence

# What means something in Markdown where it stands in a cell or a line.
MARKDOWN = re.compile(r"[\\`*_|<>\[\]~#]")


def table(
    heads: Sequence[str], rows: Iterable[Sequence[object]], right: Container[str] = ()
) -> list[str]:
    """Return the lines of a table; the columns whose heads are in `right` end at one place."""
    shown = [list(heads), *[[str(cell) for cell in row] for row in rows]]
    widths = [max(len(row[place]) for row in shown) for place in range(len(heads))]
    lines = []
    for row in shown:
        cells = [
            cell.rjust(width) if head in right else cell.ljust(width)
            for cell, width, head in zip(row, widths, heads)
        ]
        lines.append("  ".join(cells).rstrip())
    return lines


def as_json(value: object) -> str:
    """Return a value for scripts, with a line break at its end.

    Halves of pairs are spelled as JSON spells them.
    """
    text = json.dumps(value, indent=2, ensure_ascii=False)
    return text.encode("utf-8", "backslashreplace").decode() + "\n"


def markdown(
    heads: Sequence[str], rows: Iterable[Sequence[object]], right: Container[str] = ()
) -> list[str]:
    """Return the lines of a table of Markdown."""
    marks = ["---:" if head in right else "---" for head in heads]
    shown = [[markdown_text(str(cell)) for cell in row] for row in rows]
    return [f"| {' | '.join(row)} |" for row in (list(heads), marks, *shown)]


def markdown_text(text: str) -> str:
    """Return a text that Markdown shows as it stands."""
    return MARKDOWN.sub(r"\\\g<0>", text)
