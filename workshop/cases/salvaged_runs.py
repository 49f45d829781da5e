"""Runs that were stopped: what is salvaged of the bundle that holds one, and why nothing is of
others.
"""

from __future__ import annotations

import hashlib
from typing import NamedTuple

from workshop.cases.case import Case, Entry, Recorded, Wanted, Words
from workshop.cases.events import script_ended, script_members
from workshop.cases.made import Members, bundle, log as log_with
from workshop.cases.recorded_bundles import ONE_TEST_RECORDED
from workshop.cases.texts import HEAD, LOGGED_PAUSE, METADATA, RUN_PAUSED, SMALL_SESSION, replaced
from workshop.cases.whole_bundles import (
    FIRST,
    OUTPUTS,
    PAUSED,
    SECOND,
    STORE_3_0,
    TWO_SLOTS_LOG,
    manifest_of,
    older,
    whole,
    wrote,
)
from workshop.oracle.container import container

STORE = container(METADATA)
WHOLE_STORE = container([*METADATA, *OUTPUTS])
LINES = TWO_SLOTS_LOG.splitlines(keepends=True)


def counts(events: int, outputs: int) -> bytes:
    return f"events={events} outputs={outputs}\n".encode()


def salvaged(
    name: str, given: bytes | Recorded, events: int, outputs: int, written: Wanted
) -> Case:
    return Case(
        f"salvage {name}", ("salvage", "b"), given, out=counts(events, outputs), file=written
    )


def refused(name: str, given: bytes, status: int, line: str, options: Words = ()) -> Case:
    return Case(
        f"salvage {name}",
        ("salvage", "b", *options),
        given,
        status=status,
        err=f"{line}\n".encode(),
    )


# Cuts of a log: at each of its bytes.
CUTS = range(len(TWO_SLOTS_LOG) + 1)


def cut(at: int) -> Case:
    """What is salvaged of the log up to this byte, and the whole store: the lines that are whole,
    and the outputs that they name.
    """
    kept = TWO_SLOTS_LOG[: TWO_SLOTS_LOG[:at].rfind(b"\n") + 1]
    named = [output for output in OUTPUTS if output[0].removeprefix(b"out/") in kept]
    return salvaged(
        f"of a log cut at {at}",
        bundle(TWO_SLOTS_LOG[:at], WHOLE_STORE),
        kept.count(b"\n"),
        len(named),
        whole(kept, named),
    )


# What stands before the content of the second output, and half of this.
BEFORE_SECOND = container([*METADATA, FIRST, (SECOND[0], b"")])[:-1]
CUT_STORE = container([*METADATA, *OUTPUTS])[: len(BEFORE_SECOND) + 3]

# Logs over the whole store of two outputs, and what is kept of each.
KEPT_LINES = {
    "nothing but a part of a line": (b"abc", b"", 0),
    "blank lines": (b"\n \t\n" + LOGGED_PAUSE + b"\r\n", b"\n \t\n" + LOGGED_PAUSE + b"\r\n", 1),
    "a line with blanks, and members in another order": (
        b" " + RUN_PAUSED + b" \n",
        b" " + RUN_PAUSED + b" \n",
        1,
    ),
    "a line that is no text": (LOGGED_PAUSE + b"\xff\n" + LOGGED_PAUSE, LOGGED_PAUSE, 1),
    "a line that is no event": (LOGGED_PAUSE + b"{}\n" + LOGGED_PAUSE, LOGGED_PAUSE, 1),
    "a blank line before a line that is no event": (
        LOGGED_PAUSE + b"\n{}\n",
        LOGGED_PAUSE + b"\n",
        1,
    ),
    "a last line that is whole but for its LF": (LOGGED_PAUSE + RUN_PAUSED, LOGGED_PAUSE, 1),
    "one line that is whole but for its LF": (RUN_PAUSED, b"", 0),
}

# White space with a no-break space, a line with blanks around it, and the same white space. `sizes`
# counts three lines in it.
SPACED = b" \t\xc2\xa0\n \t" + RUN_PAUSED + b"\r\n \t\xc2\xa0\n"
ONE_EVENT = replaced(whole(SPACED), b'"entries":3', b'"entries":1')

# A script that wrote the first output, and the same of an output that no store has. How many lines
# of a log of both are kept, and how many outputs.
RAN: Members = {**wrote(FIRST, "pass"), "env-map": {"DB_URL": "db:1"}}
SCRIPT = log_with([script_ended(RAN, script_members(program="./db.sh", args=["up"]))])
OUTPUT_MISSING = SCRIPT.replace(b"ba7816bf8f01cfea", b"486ea46224d1bb4f")
KEPT_SCRIPTS = {
    "a pause and a script, before a line without its LF": ([LOGGED_PAUSE, SCRIPT, RUN_PAUSED], 2),
    "a script before one whose output is missing": ([SCRIPT, OUTPUT_MISSING, SCRIPT], 1),
    "two scripts before a line that is no event": ([SCRIPT, SCRIPT, b"{}\n", LOGGED_PAUSE], 2),
}

# Stores over a log that names both outputs, with the metadata in its order, and how many outputs
# are kept of each.
RERUN = (
    b"meta/rerun-info.json",
    b'{"test-suites":[],"parent-run-id":"650e8400-e29b-41d4-a716-446655440000",'
    b'"root-info":{"run-id":"750e8400-e29b-41d4-a716-446655440000",'
    b'"build-scope":{"build-kind":"cargo","scope":{}}}}',
)
OTHER = (b"out/" + hashlib.sha256(b"other").hexdigest()[:16].encode() + b"-stderr", b"other")
KEPT_ENTRIES = {
    "an output that no event names": ([*METADATA, OTHER, *OUTPUTS], METADATA, OUTPUTS),
    "an entry of another kind": (
        [*METADATA, FIRST, (b"notes", b"kept"), SECOND],
        METADATA,
        OUTPUTS,
    ),
    "outputs in another order": ([SECOND, *METADATA, FIRST], METADATA, [SECOND, FIRST]),
    "metadata in another order": ([*reversed(METADATA), *OUTPUTS], METADATA, OUTPUTS),
    "metadata with blanks": (
        [(name, b" " + content) for name, content in METADATA] + OUTPUTS,
        [(name, b" " + content) for name, content in METADATA],
        OUTPUTS,
    ),
    "rerun info": ([RERUN, *METADATA, *OUTPUTS], [METADATA[0], RERUN, *METADATA[1:]], OUTPUTS),
}


def repeated() -> bytes:
    """A store in which a name is repeated before the second output."""
    return container([*METADATA, FIRST, METADATA[0], SECOND])


def lacking(name: bytes) -> list[Entry]:
    """The metadata without the entry of this name."""
    return [(entry, content) for entry, content in METADATA if entry != name]


def other(name: bytes, content: bytes) -> list[Entry]:
    """The metadata with other bytes in the entry of this name."""
    return [(entry, content if entry == name else kept) for entry, kept in METADATA]


# The metadata in the order in which it is judged; cargo's need not be JSON. What a store has of it:
# the entry (o), bytes that are no text (x) or nothing (-), and the line of each such store.
PARTS = [METADATA[0], RERUN, METADATA[1], (METADATA[2][0], b"no JSON"), METADATA[3]]
JUDGED = {
    "-x-x-": "MissingMeta file_name=meta/build-scope.json",
    "xx-x-": "BadMeta file_name=meta/build-scope.json",
    "ox-x-": "BadMeta file_name=meta/rerun-info.json",
    "o--x-": "MissingMeta file_name=meta/test-list.json",
    "ooxx-": "BadMeta file_name=meta/test-list.json",
    "ooo--": "MissingMeta file_name=meta/cargo-metadata.json",
    "ooox-": "BadMeta file_name=meta/cargo-metadata.json",
    "oooo-": "MissingMeta file_name=meta/record-opts.json",
    "oooox": "BadMeta file_name=meta/record-opts.json",
}


def with_parts(marks: str) -> bytes:
    """A store with these parts of the metadata, the last of them first."""
    parts = [
        (name, content if mark == "o" else b"\xff")
        for (name, content), mark in zip(PARTS, marks)
        if mark != "-"
    ]
    return container(sorted(parts, key=lambda part: part[0] != PARTS[4][0]))


class Store(NamedTuple):
    """What a store is called, the store, and the line for which nothing is salvaged of it."""

    name: str
    store: bytes
    line: str


REFUSED = [
    *[Store(f"the metadata {marks}", with_parts(marks), line) for marks, line in JUDGED.items()],
    Store("a store of another version", b"nxtcont2", "BadMagic"),
    Store("a store of no bytes", b"", "BadMagic"),
    Store("a store that is cut within the magic", b"nxtcont", "BadMagic"),
    Store("a store of another kind", b"PK\3\4____", "BadMagic"),
    Store("the magic alone", b"nxtcont1", "MissingMeta file_name=meta/build-scope.json"),
    Store(
        "a store that is cut within the build scope",
        STORE[:100],
        "MissingMeta file_name=meta/build-scope.json",
    ),
    Store(
        "a store that is cut within the record options",
        STORE[:-2],
        "MissingMeta file_name=meta/record-opts.json",
    ),
    *[
        Store(
            f"no {name.decode()}",
            container(lacking(name)),
            f"MissingMeta file_name={name.decode()}",
        )
        for name, _ in METADATA
    ],
    *[
        Store(
            f"a {name.decode()} that is none",
            container(other(name, content)),
            f"BadMeta file_name={name.decode()}",
        )
        for name, content in [
            (b"meta/build-scope.json", b"{}"),
            (b"meta/test-list.json", b"[]"),
            (b"meta/cargo-metadata.json", b"\xff"),
            (b"meta/record-opts.json", b"{"),
        ]
    ],
    Store(
        "rerun info that is none",
        container([*METADATA, (b"meta/rerun-info.json", b"{}")]),
        "BadMeta file_name=meta/rerun-info.json",
    ),
    Store(
        "a build scope that is none, and no test list",
        container([(METADATA[0][0], b"[]"), *METADATA[2:]]),
        "BadMeta file_name=meta/build-scope.json",
    ),
    Store(
        "rerun info that is none, and no test list",
        container([METADATA[0], *METADATA[2:], (b"meta/rerun-info.json", b"")]),
        "BadMeta file_name=meta/rerun-info.json",
    ),
    Store(
        "no test list, and record options that are none",
        container([METADATA[0], METADATA[2], (METADATA[3][0], b"")]),
        "MissingMeta file_name=meta/test-list.json",
    ),
]

CASES = [
    salvaged(
        "of a store without its last byte",
        bundle(LOGGED_PAUSE, STORE[:-1], manifest_of(LOGGED_PAUSE, STORE)),
        1,
        0,
        PAUSED,
    ),
    salvaged(
        "of a store cut within its second output",
        bundle(TWO_SLOTS_LOG, CUT_STORE),
        7,
        1,
        whole(b"".join(LINES[:7]), [FIRST]),
    ),
    salvaged("of a recording", Recorded(SMALL_SESSION), 3, 1, ONE_TEST_RECORDED),
    salvaged(
        "of what is whole", whole(TWO_SLOTS_LOG, OUTPUTS), 14, 2, whole(TWO_SLOTS_LOG, OUTPUTS)
    ),
    salvaged(
        "of older versions",
        older(whole(TWO_SLOTS_LOG, OUTPUTS)),
        14,
        2,
        whole(TWO_SLOTS_LOG, OUTPUTS, store_version=STORE_3_0),
    ),
    *map(cut, CUTS),
    *[
        salvaged(f"of {name}", bundle(log, WHOLE_STORE), events, 0, whole(kept))
        for name, (log, kept, events) in KEPT_LINES.items()
    ],
    salvaged(
        "of white space beyond ASCII, before a line that is no text",
        bundle(SPACED + b"\xff\n" + LOGGED_PAUSE, WHOLE_STORE),
        1,
        0,
        ONE_EVENT,
    ),
    *[
        salvaged(
            f"of {name}",
            bundle(b"".join(lines), WHOLE_STORE),
            kept,
            1,
            whole(b"".join(lines[:kept]), [FIRST]),
        )
        for name, (lines, kept) in KEPT_SCRIPTS.items()
    ],
    salvaged(
        "of the metadata ooooo",
        bundle(LOGGED_PAUSE, with_parts("ooooo")),
        1,
        0,
        whole(LOGGED_PAUSE, metadata=PARTS),
    ),
    salvaged(
        "of a line whose output is missing, before others",
        bundle(TWO_SLOTS_LOG, container([*METADATA, SECOND])),
        3,
        0,
        whole(b"".join(LINES[:3])),
    ),
    salvaged(
        "of an output that two lines name",
        bundle(LINES[3] * 2, WHOLE_STORE),
        2,
        1,
        whole(LINES[3] * 2, [FIRST]),
    ),
    *[
        salvaged(
            f"of {name}",
            bundle(TWO_SLOTS_LOG, container(given)),
            14,
            2,
            whole(TWO_SLOTS_LOG, outputs, metadata),
        )
        for name, (given, metadata, outputs) in KEPT_ENTRIES.items()
    ],
    salvaged(
        "of a name that comes again",
        bundle(TWO_SLOTS_LOG, repeated()),
        7,
        1,
        whole(b"".join(LINES[:7]), [FIRST]),
    ),
    salvaged(
        "of bytes after the end of a store",
        bundle(TWO_SLOTS_LOG, WHOLE_STORE + b"\1more"),
        14,
        2,
        whole(TWO_SLOTS_LOG, OUTPUTS),
    ),
    *[
        refused(f"of {name}", bundle(LOGGED_PAUSE, store), 15, line)
        for name, store, line in REFUSED
    ],
    refused("without a log", bundle(None, STORE), 12, "MissingFile file_name=run.log.zst"),
    refused("without a store", bundle(LOGGED_PAUSE, None), 12, "MissingFile file_name=store.zip"),
    refused(
        "without a log and a store", bundle(None, None), 12, "MissingFile file_name=run.log.zst"
    ),
    refused(
        "of a log above the limit",
        bundle(TWO_SLOTS_LOG, STORE),
        7,
        f"FileTooLarge file_name=run.log.zst size={len(TWO_SLOTS_LOG)} limit=1000",
        ("--read-limit", "1000"),
    ),
    refused(
        "of a log above the limit, without a store",
        bundle(TWO_SLOTS_LOG, None),
        7,
        f"FileTooLarge file_name=run.log.zst size={len(TWO_SLOTS_LOG)} limit=1000",
        ("--read-limit", "1000"),
    ),
    refused("of no bytes", b"", 12, "ReadArchive fault=BadMagic"),
    refused("of a manifest that is none", bundle(LOGGED_PAUSE, STORE, b"{}"), 12, "ParseManifest"),
    refused("of a head", HEAD, 12, "ReadArchive fault=BadMagic"),
    refused(
        "above the session limit", PAUSED, 4, "SpoolTooLarge limit=9", ("--session-limit", "9")
    ),
    # No file has the empty word as its path.
    Case("salvage into no file", ("salvage", ""), PAUSED, status=10, err=b"SinkFailed\n"),
]
