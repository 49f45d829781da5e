"""Says by their first bytes what bytes are.

They are a bundle, a session, a trace, or what is taken for one of them by mistake.
"""

from __future__ import annotations

import os
import re

MOST = 65536
RUN_LINE = re.compile(
    rb"(?m)^\s*\{ ?\"(?:reason|type)\"\s*:\s*\""
    rb"|^\s+(?:Compiling|Running|Finished) "
    rb"|^running \d+ tests?$"
)
TEXTS = (
    (rb"\{[^\n]*\"nextest-version\"\s*:", "a session"),
    (rb"\{\s*\"displayTimeUnit\"\s*:|\{[^\n]*\"traceEvents\"\s*:", "a trace"),
    (rb"\{\"name\":\"nextest-run\"", "a report"),
    (rb"\{\"format-version\"\s*:", "a manifest"),
    (rb"header [0-9a-f-]{36} ", "a replay"),
    (rb"<\?xml|<testsuites", "an XML file"),
)


def kind_of(begins: bytes) -> str | None:
    """Return what the bytes begin, with its article, as `a session`; None where it isn't known."""
    if not begins:
        return "empty"
    if begins.startswith(b"nxtcont1"):
        return "a bundle"
    if begins.startswith(b"PK\3\4"):
        return "a zip file"
    kind = next((kind for pattern, kind in TEXTS if re.match(pattern, begins)), None)
    return kind or ("what a test run printed" if RUN_LINE.search(begins) else None)


def first_bytes(path: str | os.PathLike[str]) -> bytes | None:
    """Return the first bytes of a file, None where it can't be read."""
    try:
        with open(path, "rb") as file:
            return file.read(MOST)
    except (OSError, ValueError):
        return None
