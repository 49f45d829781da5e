"""Reads the words of options that say a time, an age or a size."""

from __future__ import annotations

import argparse
import re
import time

UNITS = {"s": 1, "m": 60, "h": 3600, "d": 86400, "w": 7 * 86400}
SIZES = {"": 1, "K": 1 << 10, "M": 1 << 20, "G": 1 << 30, "T": 1 << 40}


def age(word: str) -> float:
    """Return the seconds that a word means, as `12h` or `30d`."""
    found = re.fullmatch(r"(\d{1,9})([smhdw])", word, re.A)
    if found is None:
        raise argparse.ArgumentTypeError(f"{word!r} is no length of time: write it as 12h or 30d")
    return int(found[1]) * UNITS[found[2]]


def since(word: str) -> float:
    """Return the instant that a word means: a day of the local time, or so long ago."""
    if re.fullmatch(r"\d{4}-\d\d-\d\d", word, re.A) is None:
        return time.time() - age(word)
    try:
        return time.mktime(time.strptime(word, "%Y-%m-%d"))
    except (OverflowError, ValueError) as error:
        raise argparse.ArgumentTypeError(f"{word!r} is no day: write it as 2026-12-31") from error


def size(word: str) -> int:
    """Return the bytes that a word means, as `500M` or `2G`."""
    found = re.fullmatch(r"(\d{1,12})([KMGT]?)(?:i?B)?", word, re.A)
    if found is None:
        raise argparse.ArgumentTypeError(f"{word!r} is no size: write it as 500M or 2G")
    return int(found[1]) * SIZES[found[2]]
