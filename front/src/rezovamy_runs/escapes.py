"""Escape sequences of terminals, which neither cargo's words nor a report should have."""

from __future__ import annotations

import re

# An operating system command, or another string, up to its end; a control sequence; any other
# escape, with what stands between it and its last character; and a begin of one that has no end.
SEQUENCE = re.compile(
    r"(?:\x1b\]|\x9d)[^\x07\x1b\x90-\x9f]*(?:\x07|\x1b\\|\x9c)"
    r"|(?:\x1b[PX^_]|[\x90\x98\x9e\x9f])[^\x1b\x90-\x9f]*(?:\x1b\\|\x9c)"
    r"|(?:\x1b\[|\x9b)[0-?]*[ -/]*[@-~]"
    r"|\x1b[ -/]+[0-~]"
    r"|\x1b[0-~]?"
)
BEGIN = re.compile("[\x1b\x90-\x9f]")


def without_escapes(text: str) -> str:
    """Return the text without whole escape sequences."""
    return SEQUENCE.sub("", text) if BEGIN.search(text) else text
