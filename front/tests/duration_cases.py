"""Lengths of time as the terminal and the page tell them."""

from __future__ import annotations

DURATIONS = [
    (0, "0.000s"),
    (0.0006, "0.001s"),
    (0.0124, "0.012s"),
    (0.9994, "0.999s"),
    (1, "1.0s"),
    (59.94, "59.9s"),
    (59.95, "1m 00s"),
    (125, "2m 05s"),
    (3599.4, "59m 59s"),
    (3600, "1h 00m"),
    (90061, "25h 01m"),
]
