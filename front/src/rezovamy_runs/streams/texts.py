"""Texts that were read as UTF-8, although some of their bytes may be none."""

from __future__ import annotations


def to_bytes(text: str) -> bytes:
    """Return the bytes of a text that was read, with those that aren't UTF-8."""
    try:
        return text.encode("utf-8", "surrogateescape")
    except UnicodeEncodeError:
        return text.encode("utf-8", "replace")


def without_surrogates(text: str) -> str:
    """Return the text with a mark for each byte that isn't UTF-8.

    Halves of surrogate pairs, which no session can hold, become question marks.
    """
    return to_bytes(text).decode("utf-8", "replace")


def printable(text: str) -> str:
    """Return the text with bytes that aren't UTF-8 spelled, as `\\xff`."""
    return to_bytes(text).decode("utf-8", "backslashreplace")
