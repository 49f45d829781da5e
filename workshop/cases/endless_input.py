"""Input without an end: long lines and blank lines, under a limit of what is read."""

from __future__ import annotations

from workshop.cases.case import Case, Endless

# A long line has more bytes than the limit.
LINES = [("blank lines", Endless("")), ("long lines", Endless("x" * 65536))]

# The words, and what the line that refuses the input begins with.
COMMANDS = [
    ("record b", "SessionTooLarge"),
    ("trace", "SpoolTooLarge"),
    ("replay", "SpoolTooLarge"),
    ("report", "SpoolTooLarge"),
    ("info", "SpoolTooLarge"),
    ("slots", "SpoolTooLarge"),
    ("rerun", "SpoolTooLarge"),
    ("upgrade b", "Open SpoolTooLarge"),
    ("salvage b", "SpoolTooLarge"),
]


def refused(name: str, given: Endless, command: str, fault: str) -> Case:
    """Give a command input that never ends."""
    words = (*command.split(" "), "--session-limit", "10")
    return Case(f"{name}, {words[0]}", words, given, 4, err=f"{fault} limit=10\n".encode())


CASES = [refused(*line, *command) for line in LINES for command in COMMANDS]
