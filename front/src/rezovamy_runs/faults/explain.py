"""Says what a fault line of the program means, and what to do about it.

faults/sentences.py has a sentence for each line. Where more is known of the call,
faults/causes.py has a more exact one for some of them.
"""

from __future__ import annotations

import functools
import re
from typing import NamedTuple

from rezovamy_runs import formatting
from rezovamy_runs.faults import causes
from rezovamy_runs.faults.sentences import PHRASES, SENTENCES

VERSION = r"[\d.]+"
TEXT = ".*?"
VALUES = {
    "binary_id": TEXT,
    "test_name": TEXT,
    "file_name": TEXT,
    "path": TEXT,
    "script_id": TEXT,
    "found": VERSION,
    "supported": VERSION,
    "last": VERSION,
}
# The forms and their sentences, as pairs.
TABLE = tuple(SENTENCES.items())
UNKNOWN_CALL = causes.Call()


class Explained(NamedTuple):
    """The form of a line, its sentence, and the values that stand in the line."""

    form: str
    sentence: str
    values: dict[str, str]


@functools.cache
def pattern_of(form: str) -> re.Pattern[str]:
    """Return the regular expression of a form, with a group for each value."""
    parts = re.split(r"\{(\w+)\}", form)
    made = [
        f"(?P<{part}>{VALUES.get(part, '[0-9]+')})" if number % 2 else re.escape(part)
        for number, part in enumerate(parts)
    ]
    return re.compile("".join(made), re.S | re.A)


def find(line: str) -> Explained | None:
    """Return the form that a line has, its sentence, and its values; None where it has none.

    What `slots` doesn't take of a log, and `upgrade` of a bundle, as other commands don't, they
    answer after a word of their own.
    """
    said = line
    for word in ("Refused ", "Open ", "Read "):
        said = said.removeprefix(word)
    for form, sentence in SENTENCES.items():
        found = pattern_of(form).fullmatch(said)
        if found:
            return Explained(form, sentence, found.groupdict())
    return None


def explain(line: str, call: causes.Call = UNKNOWN_CALL) -> str | None:
    """Return the sentence for a fault line, as exact as the call lets it be.

    It is None where no line of the program is like it.
    """
    found = find(line.removesuffix("\n"))
    if found is None:
        return None
    sentence = causes.cause(found.form, call, found.values)
    return formatting.name(sentence or found.sentence.format_map(PHRASES | found.values))


def explain_or_show(line: str, call: causes.Call = UNKNOWN_CALL) -> str:
    """Return the sentence for a line that the program printed, or the line if it has none."""
    shown = formatting.name(line.strip())
    unknown = f"rezovamy says `{shown}`, which docs/CLI.md of its version explains"
    return explain(line, call) or unknown
