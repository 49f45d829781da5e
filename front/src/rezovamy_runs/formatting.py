"""Text for people: lengths of time, sizes, counts, instants, and texts of tests without harm."""

from __future__ import annotations

import re
import time

# The sequences by which programs colour their text.
COLOUR = re.compile("\x1b\\[[0-9;:]*m")
# Control characters, halves of pairs, and what reorders or hides the text around it.
HARMFUL = re.compile(
    "[\x00-\x1f\x7f-\x9f\xad\u061c\u200b-\u200f\u2028-\u202e"
    "\u2060-\u206f\ufeff\ufff9-\ufffb\ud800-\udfff]"
)
SURROGATE = re.compile("[\ud800-\udfff]")


def duration(seconds: float) -> str:
    """Return a length of time: `0.012s`, `3.4s`, `2m 05s`, `1h 02m`."""
    if seconds < 1:
        return f"{seconds:.3f}s"
    if seconds < 59.95:
        return f"{seconds:.1f}s"
    whole = round(seconds)
    if whole < 3600:
        return f"{whole // 60}m {whole % 60:02}s"
    return f"{whole // 3600}h {whole % 3600 // 60:02}m"


def size(count: float) -> str:
    """Return a number of bytes: `812 B`, `1.5 KiB`, `23.0 MiB`."""
    if count < 1024:
        return f"{count} B"
    for unit in ("KiB", "MiB", "GiB"):
        count /= 1024
        if count < 1023.95:
            return f"{count:.1f} {unit}"
    return f"{count / 1024:.1f} TiB"


def count(number: int, what: str) -> str:
    """Return a number of things: `1 test`, `2 tests`."""
    return f"{number} {what}" if number == 1 else f"{number} {what}s"


def moment(seconds: float) -> str:
    """Return an instant in the local time: `2026-11-29 14:38:42`."""
    try:
        return time.strftime("%Y-%m-%d %H:%M:%S", time.localtime(seconds))
    except (OverflowError, OSError, ValueError):
        return f"second {seconds:.0f}"


def visible(match: re.Match[str]) -> str:
    """Return how a harmful character is spelled."""
    code = ord(match[0])
    return f"\\x{code:02x}" if code < 256 else f"\\u{{{code:x}}}"


def harmless(text: str) -> str:
    """Return a text over several lines, which no terminal takes for a command.

    Colours go, and other such characters are spelled.
    """
    lines = COLOUR.sub("", text).replace("\r\n", "\n").split("\n")
    return "\n".join("\t".join(map(name, line.split("\t"))) for line in lines)


def name(text: str) -> str:
    """Return a name in one line."""
    return HARMFUL.sub(visible, text)


def is_text(name: str) -> bool:
    """Tell whether a name has no bytes that aren't UTF-8."""
    return SURROGATE.search(name) is None


def output(data: bytes) -> str:
    """Return what a test printed as a text without harm; bytes that aren't UTF-8 are spelled."""
    return harmless(data.decode("utf-8", "backslashreplace"))
