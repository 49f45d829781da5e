"""Puts the line of a test's end together again into which something else was written.

The end of a test that printed much is more than a pipe takes at once. A child process, or a thread
that writes past the capture of libtest, may write into the middle of it then. What it writes mostly
ends its own line, and the rest of the end comes after it.
"""

from __future__ import annotations

import dataclasses
import json
import re

from rezovamy_runs.json_values import JsonObject
from rezovamy_runs.streams.messages import TestEvent, test_event

TEXT = r'"(?:[^"\\]|\\.)*"'
HEAD = re.compile(
    rf'\{{ "type": "test", (?:"(?:name|event|exec_time)": (?:{TEXT}|[\d.e-]+), )+"stdout": "'
)
# What ends such a line.
END = '" }\n'
ESCAPED = re.compile(r'\\(?:["\\/bfnrt]|u[0-9a-fA-F]{4})')


@dataclasses.dataclass
class PartialEvent:
    """The begin of the line of a test's end, with the lines after it, one of which may end it."""

    head: JsonObject
    text: str
    more: list[str] = dataclasses.field(default_factory=list)

    def is_whole(self) -> bool:
        """Return whether the last line ends the end of the test."""
        return (self.more[-1] if self.more else self.text).endswith(END)

    def event(self) -> TestEvent | None:
        """Return what the lines say together.

        What was written into them stays in the output, since nothing tells it from that.
        """
        text = "".join([self.text, *self.more])
        try:
            value = json.loads(text, strict=False)
        except (ValueError, RecursionError):
            value = {"stdout": plain(HEAD.sub("", text, 1).removesuffix(END))}
        return test_event({**value, **self.head})


def partial_event(line: str) -> PartialEvent | None:
    """Return the end of a test that a line begins and doesn't end; None where it begins none."""
    found = HEAD.search(line)
    if found is None:
        return None
    try:
        head = json.loads(found[0].removesuffix(', "stdout": "') + "}")
    except ValueError:
        return None
    is_end = isinstance(head.get("name"), str) and head.get("event") in ("ok", "failed")
    return PartialEvent(head, line[found.start() :]) if is_end else None


def plain(text: str) -> str:
    """Return the text without the escapes of JSON; what is none stays."""

    def unescape(found: re.Match[str]) -> str:
        return str(json.loads(f'"{found[0]}"'))

    return ESCAPED.sub(unescape, text)
