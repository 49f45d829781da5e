"""Texts as XML can hold them, and as its readers take them."""

from __future__ import annotations

import re

from rezovamy_runs.escapes import without_escapes

NOT_XML = re.compile("[^\t\n\r\x20-\ud7ff\ue000-\ufffd\U00010000-\U0010ffff]")
# The most bytes of a text that libxml2 reads by default. Of an attribute it takes as many bytes as
# they are spelled, with up to six for a character.
MOST = 10_000_000
ATTRIBUTE_PART = 10


def clean(text: str) -> str:
    """Return a text without escape sequences of terminals, and without what XML can't hold."""
    return NOT_XML.sub("", without_escapes(text))


def cut(text: str, most: int) -> str:
    """Return the text, or its begin and its end with a note between, in at most so many bytes."""
    data = text.encode()
    if len(data) <= most:
        return text
    note = f"\n\n... [of {len(data)} bytes the middle is left out] ...\n\n"
    half = max(0, most - len(note)) // 2
    begin, end = data[:half], data[len(data) - half :]
    return begin.decode(errors="ignore") + note + end.decode(errors="ignore")
