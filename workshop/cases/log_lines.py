"""The lines of a log by their numbers, with and without an LF at the end."""

from __future__ import annotations

from workshop.cases.case import SOME, Case
from workshop.cases.made import logged_bundle
from workshop.cases.texts import RUN_STARTED

# Logs, and the number of their line that is no event, none where there is none.
LOGS = [
    (b"", None),
    (b"{}", 1),
    (b"{}\n", 1),
    (b"\n", None),
    (b"\n\n", None),
    (b"\n\n{}", 3),
    (RUN_STARTED + b"\n{}", 2),
    (RUN_STARTED + b"\n\n{}\n", 3),
    (b" " + RUN_STARTED + b" \r\n\xc2\xa0\t\n", None),
]


def of_log(log: bytes, number: int | None) -> Case:
    if number is None:
        return Case(f"{log!r}", ("trace",), logged_bundle(log), out=SOME)
    return Case(
        f"{log!r}",
        ("trace",),
        logged_bundle(log),
        5,
        err=b"ReadError ParseEvent line_number=%d\n" % number,
    )


CASES = [of_log(*row) for row in LOGS]
