"""Instants at the ends of what a trace can draw: its microseconds are an i64, rounded down."""

from __future__ import annotations

from workshop.cases.case import Case
from workshop.cases.histories import run, traced_bundle
from workshop.cases.outlines import outline

# The seconds and nanoseconds of instants, and their microseconds.
DRAWN = [
    (-1, 999999999, -1),
    (9223372036854, 775807999, 9223372036854775807),
    (-9223372036855, 224192000, -9223372036854775808),
]
# Those of instants whose microseconds are no i64.
TOO_FAR = [(9223372036854, 775808000), (-9223372036855, 224191999)]

CASES = [
    *[
        Case(
            f"microsecond {micros}",
            ("trace",),
            traced_bundle([run(secs, nanos)]),
            out=outline("B", f"B run:test run 0/1 {micros}\n"),
        )
        for secs, nanos, micros in DRAWN
    ],
    *[
        Case(
            f"second {secs} and nanosecond {nanos}",
            ("trace",),
            traced_bundle([run(secs, nanos)]),
            9,
            err=b"TimestampOutOfRange event=1\n",
        )
        for secs, nanos in TOO_FAR
    ],
]
