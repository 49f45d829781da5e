"""How the slots of a bundle's run were used, and which logs have no report of that."""

from __future__ import annotations

import dataclasses
from collections.abc import Sequence
from typing import NamedTuple

from workshop.cases.case import Case, Recorded, Words
from workshop.cases.histories import (
    Line,
    end,
    fail,
    go_on,
    pause,
    retry,
    run,
    run_end,
    skip,
    start,
    traced_bundle,
    traced_log,
    traced_session,
    two_slots,
)
from workshop.cases.made import bundle, log_of, logged_bundle
from workshop.cases.texts import RUN_PAUSED, session_of

TWO_SLOTS_USED = (
    "run=11000000000\n"
    "slot=0 busy=6000000000 paused=3000000000 idle=2000000000\n"
    "slot=1 busy=6000000000 paused=3000000000 idle=2000000000\n"
)
GREATEST = 18446744073709551615
SECOND = 1000000000


def late(line: Line, nanos: int) -> Line:
    """The same so many nanoseconds later."""
    return dataclasses.replace(line, nanos=nanos)


def used(length: int, *slots: tuple[int, int, int, int]) -> str:
    """The lines of a run of so many seconds, and of slots that were busy, paused and idle for so
    many.
    """
    lines = [
        f"run={length * SECOND}",
        *(
            f"slot={slot} busy={busy * SECOND} paused={paused * SECOND} idle={idle * SECOND}"
            for slot, busy, paused, idle in slots
        ),
    ]
    return "".join(f"{line}\n" for line in lines)


class Usage(NamedTuple):
    """A history, and what is printed of how its slots were used."""

    events: list[Line]
    out: str


class Refusal(NamedTuple):
    """A history, and the status and the line for which nothing is printed of it."""

    events: list[Line]
    status: int
    line: str


# Histories whose slots are shown.
USAGES = {
    "no attempt": Usage([run(1000), late(run_end(1002), 1)], "run=2000000001\n"),
    "nothing at all": Usage([run(1000), run_end(1000)], used(0)),
    "an attempt over a pause": Usage(
        [
            run(1000),
            start(1001, 1, 0),
            pause(1003, 0),
            go_on(1006, 0),
            end(1010, 1, 0),
            run_end(1015),
        ],
        used(15, (0, 6, 3, 6)),
    ),
    "times of some nanoseconds": Usage(
        [
            run(1000),
            late(start(1000, 1, 0), 1),
            late(pause(1000, 0), 3),
            late(go_on(1000, 0), 6),
            late(end(1000, 1, 0), 10),
            late(run_end(1000), 15),
        ],
        "run=15\nslot=0 busy=6 paused=3 idle=6\n",
    ),
    "an attempt that starts in a pause": Usage(
        [
            run(1000),
            pause(1001, 0),
            start(1002, 1, 0),
            go_on(1004, 0),
            end(1005, 1, 0),
            run_end(1006),
        ],
        used(6, (0, 1, 3, 2)),
    ),
    "an attempt that starts in the pause of another": Usage(
        [
            run(1000),
            start(1001, 1, 0),
            pause(1003, 0),
            start(1006, 2, 7),
            go_on(1007, 0),
            end(1010, 1, 0),
            end(1012, 2, 0),
            run_end(1015),
        ],
        used(15, (0, 5, 4, 6), (7, 5, 4, 6)),
    ),
    "an attempt that ends in a pause": Usage(
        [
            run(1000),
            start(1001, 1, 0),
            pause(1002, 0),
            end(1003, 1, 0),
            go_on(1005, 0),
            run_end(1006),
        ],
        used(6, (0, 1, 3, 2)),
    ),
    "a retry on another slot": Usage(
        [
            run(1000),
            start(1001, 2, 0),
            fail(1002, 2),
            retry(1003, 2, 3),
            end(1005, 2, 0),
            run_end(1006),
        ],
        used(6, (0, 1, 0, 5), (3, 2, 0, 4)),
    ),
    "slots in another order": Usage(
        [
            run(1000),
            start(1000, 1, 7),
            start(1000, 2, 2),
            end(1001, 1, 0),
            end(1002, 2, 0),
            run_end(1002),
        ],
        used(2, (2, 2, 0, 0), (7, 1, 0, 1)),
    ),
    "a continuation whose instant is after the run's start": Usage(
        [go_on(1007, 0), run(1006), run_end(1009)], used(3)
    ),
    "a pause before the run": Usage(
        [
            pause(1000, 0),
            run(1005),
            start(1006, 1, 0),
            go_on(1008, 0),
            end(1009, 1, 0),
            run_end(1010),
        ],
        used(5, (0, 1, 3, 1)),
    ),
    "an instant that falls before the run": Usage(
        [skip(1001, 1), run(1000), run_end(1002)], used(2)
    ),
    "an instant that falls after the run": Usage(
        [run(1000), run_end(1002), skip(1001, 1)], used(2)
    ),
    "events of one instant": Usage(
        [
            run(1000),
            start(1000, 1, 0),
            end(1000, 1, 0),
            start(1000, 1, 0),
            end(1000, 1, 0),
            run_end(1000),
        ],
        used(0, (0, 0, 0, 0)),
    ),
}

# Histories whose slots aren't.
REFUSED = {
    "no run": Refusal([], 14, "NotOneRun"),
    "two runs": Refusal([run(1000), run_end(1001), run(1002), run_end(1003)], 14, "NotOneRun"),
    "a run that doesn't end": Refusal(
        [run(1000), start(1001, 1, 0), end(1002, 1, 0)], 14, "NotOneRun"
    ),
    "an end before the start": Refusal([run_end(1000), run(1001)], 14, "NotOneRun"),
    "a start before the run": Refusal(
        [start(1000, 1, 0), run(1001), end(1002, 1, 0), run_end(1003)], 14, "AttemptOutside event=1"
    ),
    "an attempt before the run": Refusal(
        [start(1000, 1, 0), end(1000, 1, 0), run(1001), run_end(1003)], 14, "AttemptOutside event=1"
    ),
    "an attempt open at the end": Refusal(
        [run(1000), start(1001, 1, 0), run_end(1002)], 14, "AttemptOutside event=2"
    ),
    "an attempt that ends after the run": Refusal(
        [run(1000), start(1001, 1, 0), run_end(1002), end(1003, 1, 0)], 14, "AttemptOutside event=2"
    ),
    "a start after the run": Refusal(
        [run(1000), run_end(1002), start(1003, 1, 0), end(1004, 1, 0)], 14, "AttemptOutside event=3"
    ),
    "a start after the run and an attempt inside": Refusal(
        [
            run(1000),
            start(1001, 1, 0),
            end(1001, 1, 0),
            run_end(1002),
            start(1002, 2, 0),
            end(1003, 2, 0),
        ],
        14,
        "AttemptOutside event=5",
    ),
    "the first of two attempts": Refusal(
        [start(1000, 1, 0), run(1001), start(1001, 2, 1), run_end(1003)],
        14,
        "AttemptOutside event=1",
    ),
    "an end a nanosecond before": Refusal(
        [run(1000), late(pause(1002, 0), 1), run_end(1002)], 14, "StampFell event=3"
    ),
    "the first of two falls": Refusal(
        [run(1000), pause(1005, 0), go_on(1004, 0), run_end(1003)], 14, "StampFell event=3"
    ),
    "an attempt outside after a fall": Refusal(
        [run(1000), pause(1005, 0), go_on(1004, 0), start(1006, 1, 0), run_end(1007)],
        14,
        "AttemptOutside event=4",
    ),
    "an event that contradicts others, after two runs": Refusal(
        [run(1000), run_end(1000), run(1000), run_end(1000), start(1001, 1, 3), start(1001, 2, 3)],
        8,
        "Refused SlotBusy event=6 slot=3",
    ),
    "an end without a start": Refusal(
        [run(1000), end(1001, 1, 0), run_end(1002)],
        8,
        "Refused MissingTestStart event=2 binary_id=alpha::a test_name=t1",
    ),
    "a slot that has no row": Refusal(
        [run(1000), start(1001, 1, GREATEST - 9999), end(1002, 1, 0), run_end(1003)],
        9,
        f"Refused RowOutOfRange event=2 number={GREATEST - 9999}",
    ),
}


def printed(name: str, events: Sequence[Line], out: str) -> Case:
    return Case(f"slots of {name}", ("slots",), traced_bundle(events), out=out.encode())


def refused(name: str, events: Sequence[Line], status: int, line: str) -> Case:
    return Case(
        f"slots of {name}",
        ("slots",),
        traced_bundle(events),
        status=status,
        err=f"{line}\n".encode(),
    )


def unread(name: str, log: bytes, status: int, line: str, options: Words = ()) -> Case:
    """A case of a log that isn't read."""
    return Case(
        f"slots {name}",
        ("slots", *options),
        logged_bundle(log),
        status=status,
        err=f"{line}\n".encode(),
    )


RUN_LOG = traced_log([run(1000), run_end(1001)])

CASES = [
    Case(
        "slots of two slots",
        ("slots",),
        Recorded(traced_session(two_slots())),
        out=TWO_SLOTS_USED.encode(),
    ),
    Case(
        "slots of a pause alone",
        ("slots",),
        Recorded(session_of(RUN_PAUSED)),
        status=14,
        err=b"NotOneRun\n",
    ),
    *[printed(name, *usage) for name, usage in USAGES.items()],
    *[refused(name, *refusal) for name, refusal in REFUSED.items()],
    Case(
        "slots without a log",
        ("slots",),
        bundle(None, None),
        status=12,
        err=b"MissingFile file_name=run.log.zst\n",
    ),
    Case(
        "slots with a store that is none", ("slots",), bundle(RUN_LOG, b"PK"), out=used(1).encode()
    ),
    unread(
        "of a log above the limit",
        RUN_LOG,
        7,
        f"FileTooLarge file_name=run.log.zst size={len(RUN_LOG)} limit=500",
        ("--read-limit", "500"),
    ),
    unread("of a line that is no event", RUN_LOG + log_of("{}"), 5, "ParseEvent line_number=3"),
    unread("of a line that is no text", b"\n\xff\n" + RUN_LOG, 5, "ReadRunLog line_number=2"),
    unread(
        "of a line that is no event after a refused one",
        traced_log([end(1000, 1, 0)]) + log_of("{}"),
        5,
        "ParseEvent line_number=2",
    ),
]
