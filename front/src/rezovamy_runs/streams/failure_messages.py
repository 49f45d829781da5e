"""What went wrong in a test, in the words of its output."""

from __future__ import annotations

import re
from collections.abc import Sequence

from rezovamy_runs.escapes import without_escapes

PANIC = re.compile(r"^thread '[^\n]*' (?:\(\d+\) )?panicked at (.*)$", re.M)
PANIC_END = re.compile(r"^(?:stack backtrace:|note: run with `RUST_BACKTRACE=)", re.M)
ERROR = re.compile(r"^(?:Error: |error(?:\[\w+\])?: |Test executable failed )", re.M)
LONGEST = 2000


def errors_of(outputs: Sequence[str], message: str | None) -> list[str]:
    """Return the errors of a failed test, the first of them in one line.

    They are what libtest says of it, and what the first of its outputs shows that shows something.
    """
    errors = [] if message is None else in_lines(message)
    shown = (look(output) for look in (panic, error) for output in outputs)
    found: list[str] = next(filter(None, shown), [])
    return errors + [line for line in found if line not in errors]


def in_lines(text: str) -> list[str]:
    """Split a text into its first line, and the rest of it, where there is one."""
    first, _, rest = cut(without_escapes(text).strip()).partition("\n")
    return [part.rstrip() for part in (first, rest) if part.strip()]


def panic(output: str) -> list[str]:
    """Return the last panic in an output.

    First comes where it was, with the first line of its message, and then the rest of that.
    """
    text, found = without_escapes(output), None
    for found in PANIC.finditer(text):
        pass
    if found is None:
        return []
    message = PANIC_END.split(text[found.end() :], maxsplit=1)[0].strip("\n")
    first, _, rest = cut(message).partition("\n")
    place = found[1].strip()
    return [f"panicked at {place} {first}".rstrip()] + ([rest.rstrip()] if rest.strip() else [])


def error(output: str) -> list[str]:
    """Return what a test that answers an error prints, or a doctest that ends without a panic."""
    text = without_escapes(output)
    found = ERROR.search(text)
    return in_lines(text[found.start() :]) if found else []


def cut(text: str) -> str:
    """Return the text, or its begin where it is long."""
    return text if len(text) <= LONGEST else text[:LONGEST] + " .."
