"""The lines of sessions and logs: a head, blank lines and events, and which fault of a line is
answered.
"""

from __future__ import annotations

from collections.abc import Iterator

from workshop.cases.case import SOME, Case, Wanted
from workshop.cases.hostile import BUNDLE, SESSION
from workshop.cases.made import logged_bundle, session
from workshop.cases.texts import (
    BAD_HEAD,
    HEAD,
    PAUSE_ALONE,
    RUN_STARTED,
    attempt_with,
    end_after,
    finished,
    session_of,
)

# What stands before the head, what stands after it, and the line that refuses it, none where it is
# recorded.
AROUND_HEAD = [
    (b"", b"\n", b""),
    (b" \t", b"\r\n", b""),
    (b"\xc2\xa0", b"\xe2\x80\xa8\n", b""),
    (b"", b"\n\n \t\r\n\xc2\xa0\n\xe3\x80\x80", b""),
    (b"\n", b"\n", b"ParseHead\n"),
    (b"\xff", b"\n", b"ParseHead\n"),
    (b"\xef\xbb\xbf", b"\n", b"ParseHead\n"),
    (b"x", b"\n\xff", b"ParseHead\n"),
    (b"", b"}\n", b"ParseHead\n"),
    (b"", b"\n{}", b"ParseEvent line_number=2\n"),
    (b"", b"\n\n \n{}\n\xff", b"ParseEvent line_number=4\n"),
    (b"", b"\n\xe2\x80\x8b\n", b"ParseEvent line_number=2\n"),
    (b"", b"\n\xff\n{}", b"ReadRunLog line_number=2\n"),
    (b"", b"\n\n \xc2\n", b"ReadRunLog line_number=3\n"),
]

# The line between a blank one and a second start of the run, the status and the line that refuses
# the session.
BEFORE_SECOND_START = [
    (b'{"kind":"run-started"}', 5, b"ParseEvent line_number=4\n"),
    (b"{}", 5, b"ParseEvent line_number=4\n"),
    (b"null", 5, b"ParseEvent line_number=4\n"),
    (b"\xc2\xa0", 8, b"SpanAlreadyOpen event=2 span=Run\n"),
]
LIMITED = ("record", "b", "--read-limit", "65536")

CAPTURED = end_after(attempt_with('{"output":{"output":{"combined":"6f6b"}}}')).encode()

# The fourth line of a log, after three that are empty, and what is answered.
FOURTH_LINES = [
    (b"\t" + RUN_STARTED + b"\r", None),
    (b"", None),
    (b" \t\r", None),
    (b"\xff", b"ReadRunLog line_number=4"),
    (b" \xc3", b"ReadRunLog line_number=4"),
    (b"{", b"ParseEvent line_number=4"),
    (b"{}", b"ParseEvent line_number=4"),
]

# Texts, the fault of their first line that has one, and its number.
TEXTS: list[tuple[bytes, bytes | None, int]] = [
    (b"\n \n\t\r\n", None, 0),
    (b"\xc3\n", b"ReadRunLog", 1),
    (b"\n[]", b"ParseEvent", 2),
    (b"{\n}", b"ParseEvent", 1),
]

# An event of a session is none of a log where it has captured outputs.
MIXED = [
    RUN_STARTED,
    b" \r",
    b"",
    "\u00a0\t".encode(),
    b"\xff",
    CAPTURED,
    b"{}",
    b"",
    RUN_STARTED,
    b" ",
]

MIXED_TEXTS: list[tuple[bytes, bytes | None, int]] = [
    (b"\n".join(MIXED), b"ReadRunLog", 5),
    (b"\n".join(MIXED[:4] + MIXED[6:]), b"ParseEvent", 5),
    (b"\n".join([RUN_STARTED, b"", b"\xff", b"{}"]), b"ReadRunLog", 3),
    (b"\n".join([RUN_STARTED, b"", b"", b"{}"]), b"ParseEvent", 4),
]

# More lines than one block of a session has, which is 1 MiB and the rest of a line: each is a byte,
# or some thousands.
MANY_BLANKS = [(b"\n", 3_000_000), (b" " * 4999 + b"\n", 700)]


def around_head(before: bytes, after: bytes, line: bytes) -> Case:
    """A case of a head between these bytes."""
    status = 5 if line else 0
    out: Wanted = b"" if line else SOME
    file = None if line else SOME
    return Case(
        f"head between {before!r} and {after!r}",
        ("record", "b"),
        before + HEAD + after,
        status,
        out,
        line,
        file,
    )


def of_log(name: str, log: bytes, fault: bytes | None) -> Case:
    """The log is traced where it has no fault."""
    if fault is None:
        return Case(f"{name}, of a log", ("trace",), logged_bundle(log), out=SOME)
    return Case(
        f"{name}, of a log", ("trace",), logged_bundle(log), 5, err=b"ReadError " + fault + b"\n"
    )


def at_line(fault: bytes, number: int) -> bytes:
    """Return the text of a fault at a line."""
    return fault + b" line_number=%d" % number


def of_session(text: bytes, fault: bytes | None, number: int) -> Case:
    """The text after the head, which is line 1."""
    if fault is None:
        return Case(f"{text!r}, recorded", ("record", "b"), session() + text, out=SOME, file=SOME)
    return Case(
        f"{text!r}, recorded",
        ("record", "b"),
        session() + text,
        5,
        err=at_line(fault, number + 1) + b"\n",
    )


def with_blanks(line: bytes, count: int) -> Iterator[Case]:
    """Cases of a session that has so many blank lines after its head, and of one with a line after
    them that is no event.
    """
    head, events = SESSION.split(b"\n", 1)
    blanks = line * count
    name = f"{count} lines of {len(line)} bytes"
    yield Case(
        f"{name} after the head",
        ("record", "b"),
        head + b"\n" + blanks + events,
        out=PAUSE_ALONE,
        file=BUNDLE,
    )
    yield Case(
        f"{name} at the end", ("record", "b"), SESSION + blanks, out=PAUSE_ALONE, file=BUNDLE
    )
    number = b"ParseEvent line_number=%d\n" % (count + 2)
    yield Case(
        f"{name}, and no event",
        ("record", "b"),
        head + b"\n" + blanks + b"{}\n" + events,
        5,
        err=number,
    )


CASES = [
    *[around_head(*case) for case in AROUND_HEAD],
    Case("nothing", ("record", "b"), b"", 5, err=b"ParseHead\n"),
    Case("a run id that is a number", ("record", "b"), BAD_HEAD, 5, err=b"ParseHead\n"),
    Case(
        "half a digit pair, and another faulty line",
        LIMITED,
        session_of(RUN_STARTED, finished(b'{"split":{"stdout":"61626"}}'), b"{}"),
        5,
        err=b"ParseEvent line_number=3\n",
    ),
    Case(
        "a line that is no text",
        ("record", "b"),
        session_of(RUN_STARTED, b"", b"") + b"\xff\n{}\n",
        5,
        err=b"ReadRunLog line_number=4\n",
    ),
    *[
        Case(
            f"{line!r} before a second start",
            LIMITED,
            session_of(RUN_STARTED, b" ", line, RUN_STARTED),
            status,
            err=refusal,
        )
        for line, status, refusal in BEFORE_SECOND_START
    ],
    *(of_log(f"{line!r} as fourth line", b"\n\n\n" + line, fault) for line, fault in FOURTH_LINES),
    *(
        of_log(f"{text!r}", text, fault and at_line(fault, number))
        for text, fault, number in TEXTS + MIXED_TEXTS
    ),
    *(of_session(*row) for row in TEXTS + MIXED_TEXTS),
    *(case for blanks in MANY_BLANKS for case in with_blanks(*blanks)),
    of_log("no line", b"", None),
    of_log("captured output", b"\n".join(MIXED[:4] + MIXED[5:]), b"ParseEvent line_number=5"),
]
