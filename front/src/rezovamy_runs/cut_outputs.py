"""Outputs that lost their middle while their process ran, with a note in its place.

A session has no member for the size that such an output had, so the note tells it.
"""

from __future__ import annotations

import re

# How many of the first and of the last bytes are kept. The first ones may lack what libtest itself
# has printed.
FIRST, LAST, MOST_LACKING = 1 << 20, 4096, 64
NOTE = re.compile(rb"\n\n\.\.\. \[truncated (\d{1,18}) bytes\] \.\.\.\n\n")
LONGEST_NOTE = 64


def note(left_out: int) -> bytes:
    """Return the note in place of so many bytes."""
    return b"\n\n... [truncated %d bytes] ...\n\n" % left_out


def original_size(kept: bytes) -> int | None:
    """Return how many bytes an output had of which this is kept; None if it is whole."""
    end = len(kept) - LAST
    for found in NOTE.finditer(kept, max(FIRST - MOST_LACKING, end - LONGEST_NOTE)):
        if found.end() == end and found.start() <= FIRST:
            return len(kept) - len(found[0]) + int(found[1])
    return None
