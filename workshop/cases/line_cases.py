"""Cases of one event: how `record` and `trace` take its line, after what has to start before it."""

from __future__ import annotations

from collections.abc import Callable, Iterator, Sequence
from typing import TypeAlias

from workshop.cases.case import SOME, Case, entry_is
from workshop.cases.events import starts_of
from workshop.cases.made import log_of, logged_bundle, session

# The name of the log in a bundle.
RUN_LOG = b"run.log.zst"
# What stands in a table in the place of a text for a value that is refused.
REFUSED = None

# Texts, and what each is written as.
Row: TypeAlias = tuple[str, str | None]
Rows: TypeAlias = Sequence[Row]
# What makes a case of a name and a line.
CaseOf: TypeAlias = Callable[[str, str], Case]

# Texts and run ids.
TEXTS: list[Row] = [
    ('""', '""'),
    ('"a\\u0042\\n"', '"aB\\n"'),
    ('"\\ud83d\\ude00"', '"😀"'),
    ('"\\ud83d"', REFUSED),
    ("a", REFUSED),
]
RUN_IDS: list[Row] = [
    ('"550E8400-E29B-41D4-A716-446655440000"', '"550e8400-e29b-41d4-a716-446655440000"'),
    ('"550e8400e29b41d4a716446655440000"', '"550e8400-e29b-41d4-a716-446655440000"'),
    ('"{550e8400-e29b-41d4-a716-446655440000}"', '"550e8400-e29b-41d4-a716-446655440000"'),
    ('"urn:uuid:550e8400-e29b-41d4-a716-446655440000"', '"550e8400-e29b-41d4-a716-446655440000"'),
    ('"550e8400"', REFUSED),
    ("5", REFUSED),
]


def written(name: str, line: str, logged: str) -> Case:
    """The event of a session stands so in the log."""
    starts = starts_of(line)
    log = log_of(*starts, logged)
    return Case(
        f"{name}, recorded",
        ("record", "b"),
        session(*starts, line),
        out=SOME,
        file=entry_is(RUN_LOG, log),
    )


def read_of_session(name: str, line: str) -> Case:
    return Case(
        f"{name}, recorded", ("record", "b"), session(*starts_of(line), line), out=SOME, file=SOME
    )


def read_of_log(name: str, line: str) -> Case:
    return Case(
        f"{name}, of a log", ("trace",), logged_bundle(log_of(*starts_of(line), line)), out=SOME
    )


def refused_in_session(name: str, line: str) -> Case:
    return Case(
        f"{name}, recorded", ("record", "b"), session(line), 5, err=b"ParseEvent line_number=2\n"
    )


def refused_in_log(name: str, line: str) -> Case:
    return Case(
        f"{name}, of a log",
        ("trace",),
        logged_bundle(log_of(line)),
        5,
        err=b"ReadError ParseEvent line_number=1\n",
    )


# How a line is taken as an event, and how it is refused, in a session and in a log.
IN_SESSION = (read_of_session, refused_in_session)
IN_LOG = (read_of_log, refused_in_log)


def written_as(name: str, lines: Sequence[tuple[str, str]]) -> Iterator[Case]:
    """Each event is logged as the line beside it, and that line as itself.

    A log is read like a session.
    """
    for number, (line, logged) in enumerate(lines):
        yield written(f"{name} {number}", line, logged)
        yield read_of_log(f"{name} {number}", line)
        if line != logged:
            yield written(f"{name} {number} as it is logged", logged, logged)
            yield read_of_log(f"{name} {number} as it is logged", logged)


def in_event(name: str, event: str, rows: Rows) -> Iterator[Case]:
    """The cases of texts in the place of VALUE."""
    for text, logged in rows:
        if logged is REFUSED:
            yield refused_in_session(f"{name} {text}", event.replace("VALUE", text))
        else:
            yield written(
                f"{name} {text}", event.replace("VALUE", text), event.replace("VALUE", logged)
            )
