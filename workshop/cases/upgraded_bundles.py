"""Bundles that are upgraded: what is written of them, and why others are refused."""

from __future__ import annotations

from collections.abc import Iterator, Sequence
from typing import NamedTuple

from workshop.cases.case import Case, Entry, Recorded, Wanted, Words
from workshop.cases.made import bundle, held, log_of
from workshop.cases.recorded_bundles import (
    FAILED_LINE,
    HEAD_ALONE,
    ONE_TEST_RECORDED,
    SCRIPT_LINE,
    STORED_OF_ALL_KINDS,
    TWO_ATTEMPTS_LINE,
    logged,
)
from workshop.cases.texts import (
    BUILD_SCOPE,
    HEAD,
    LOGGED_PAUSE,
    LOG_LINES,
    MANIFEST,
    METADATA,
    NEWER_STORE,
    OLDER_STORE,
    RUN_PAUSED,
    SMALL_SESSION,
    replaced,
)
from workshop.cases.whole_bundles import (
    FIRST,
    FORMAT_1_1,
    OUTPUTS,
    PAUSED,
    SECOND,
    STORE_3_0,
    STORE_3_1,
    TWO_SLOTS_LOG,
    manifest_of,
    older,
    whole,
)
from workshop.oracle.container import container

STORE = container(METADATA)
MANIFEST_OF_PAUSE = manifest_of(LOGGED_PAUSE, STORE)
ONE_TEST_LOG = log_of(*LOG_LINES)
PARTS = [
    (b"manifest.json", MANIFEST_OF_PAUSE),
    (b"run.log.zst", LOGGED_PAUSE),
    (b"store.zip", STORE),
]
NOTES = (b"notes", b"kept")

FORMAT_1_2 = b'"format-version":{"major":1,"minor":2}'
STORE_3_2, STORE_2 = b'"store-format-minor-version":2', b'"store-format-version":2'

# What is said of a part of the store that is missing, and of one that stands for nothing.
MISSING = "Read FileNotFound file_name="
NO_ITEM = "Read DeserializeMetadata file_name="


def upgraded(name: str, given: bytes | Recorded, written: Wanted, options: Words = ()) -> Case:
    return Case(f"upgrade {name}", ("upgrade", "b", *options), given, file=written)


def refused(name: str, given: bytes, status: int, line: str, options: Words = ()) -> Case:
    return Case(
        f"upgrade {name}",
        ("upgrade", "b", *options),
        given,
        status=status,
        err=f"{line}\n".encode(),
    )


def with_part(name: bytes, content: bytes) -> list[Entry]:
    """The metadata, with other bytes in the entry of this name."""
    return [(entry, content if entry == name else kept) for entry, kept in METADATA]


# Metadata in another spelling, in another order, with a rerun's.
RERUN_GIVEN = (
    b'{ "parent-run-id":"650E8400-E29B-41D4-A716-446655440000","x":1,'
    b'"root-info":{"run-id":"750e8400-e29b-41d4-a716-446655440000",'
    b'"build-scope":{"build-kind":"cargo","scope":{}}},"test-suites":[]}'
)
RERUN_WRITTEN = (
    b'{"parent-run-id":"650e8400-e29b-41d4-a716-446655440000","root-info":{"build-scope":'
    + BUILD_SCOPE
    + b',"run-id":"750e8400-e29b-41d4-a716-446655440000"},"test-suites":[]}'
)
SPELLED = [
    (b"meta/record-opts.json", b' {"run-mode" : "test", "more": []} '),
    (b"meta/cargo-metadata.json", b"{ }"),
    (b"meta/test-list.json", b'{"suites":{"b":["t","t"],"a":[]}}'),
    (b"meta/rerun-info.json", RERUN_GIVEN),
    (b"meta/build-scope.json", b'{"scope":{},"build-kind":"cargo"}'),
]
WRITTEN = [
    (b"meta/build-scope.json", BUILD_SCOPE),
    (b"meta/rerun-info.json", RERUN_WRITTEN),
    (b"meta/test-list.json", b'{"suites":{"a":[],"b":["t","t"]}}'),
    (b"meta/cargo-metadata.json", b"{ }"),
    (b"meta/record-opts.json", b'{"run-mode":"test"}'),
]

# A manifest with other members, in another order, and sizes that are not those of its parts; and
# one that lacks what has a default.
SPELLED_MANIFEST = replaced(
    replaced(
        MANIFEST,
        b'{"format-version":{"major":1,"minor":1},',
        b'{"x":[1], "format-version":{"minor":1,"major":1},',
    ),
    b'"entries":4',
    b'"entries":77',
)
SHORT_MANIFEST = replaced(MANIFEST_OF_PAUSE, b'"cli-args":[],"env-vars":{},', b"")

# Logs as they are given, and as they are written.
LOGS = {
    "an empty log": (b"", b""),
    "blank lines": (b"\n \n" + LOGGED_PAUSE + b"\t\n", LOGGED_PAUSE),
    "a last line without LF": (LOGGED_PAUSE.rstrip(), LOGGED_PAUSE),
    "a line as a session has it": (RUN_PAUSED + b"\r\n", LOGGED_PAUSE),
    "blanks around an event": (b" " + RUN_PAUSED + b" \n", LOGGED_PAUSE),
    "a member that is no event's": (
        log_of(replaced(RUN_PAUSED, b'"running":1', b'"running":1,"x":{}')),
        LOGGED_PAUSE,
    ),
}

# Stores as they are given, and as they are written.
NAMED = (b"out/0000000000000000-stdout", b"abc")
NAMED_LOG = replaced(ONE_TEST_LOG, b"ba7816bf8f01cfea", b"0000000000000000")
STORES: dict[str, tuple[bytes, list[Entry], tuple[bytes, list[Entry], list[Entry]]]] = {
    "metadata in another order and spelling": (LOGGED_PAUSE, SPELLED, (LOGGED_PAUSE, [], WRITTEN)),
    "metadata between outputs": (
        ONE_TEST_LOG,
        [*METADATA[2:], FIRST, *METADATA[:2]],
        (ONE_TEST_LOG, [FIRST], METADATA),
    ),
    "an output under another name": (NAMED_LOG, [*METADATA, NAMED], (NAMED_LOG, [NAMED], METADATA)),
}


class Unopened(NamedTuple):
    """Why a bundle isn't opened, the bundle, the status and the line."""

    name: str
    bundle: bytes
    status: int
    line: str


class Unread(NamedTuple):
    """A log and a store of which a part isn't read, and the line and the status of the first."""

    name: str
    log: bytes
    entries: list[Entry]
    line: str
    status: int = 12


UNOPENED = [
    Unopened("no bytes", b"", 12, "ReadArchive fault=BadMagic"),
    Unopened(
        "a container that is cut off",
        PAUSED[:-1],
        12,
        f"ReadArchive fault=Truncated at={len(PAUSED) - 1}",
    ),
    Unopened(
        "a container without files",
        b"nxtcont1\0",
        12,
        "NotAWrapperArchive file_count=0 zip_count=0",
    ),
    Unopened(
        "a container without a manifest",
        held((b"x.zip", b"")),
        12,
        "NotAWrapperArchive file_count=1 zip_count=1",
    ),
    Unopened("a manifest that is none", bundle(LOGGED_PAUSE, STORE, b"{}"), 12, "ParseManifest"),
    Unopened(
        "a newer format",
        bundle(LOGGED_PAUSE, STORE, replaced(MANIFEST, FORMAT_1_1, FORMAT_1_2)),
        12,
        (
            "UnsupportedFormatVersion found=1.2 supported=1.1 incompatibility=MinorTooNew "
            "recording_minor=2 supported_minor=1"
        ),
    ),
    Unopened(
        "a newer store",
        bundle(LOGGED_PAUSE, STORE, replaced(MANIFEST, STORE_3_1, STORE_3_2)),
        12,
        NEWER_STORE.decode().rstrip(),
    ),
    Unopened(
        "an older store",
        bundle(
            LOGGED_PAUSE,
            STORE,
            replaced(MANIFEST, STORE_3_1 + b',"store-format-version":3', STORE_2),
        ),
        12,
        OLDER_STORE.decode().rstrip(),
    ),
    Unopened("no log", bundle(None, STORE), 12, "MissingFile file_name=run.log.zst"),
    Unopened("no store", bundle(LOGGED_PAUSE, None), 12, "MissingFile file_name=store.zip"),
    Unopened("no log and no store", bundle(None, None), 12, "MissingFile file_name=run.log.zst"),
    Unopened("a store that is none", bundle(LOGGED_PAUSE, b"PK"), 12, "ReadArchive fault=BadMagic"),
    Unopened(
        "a store that is cut off",
        bundle(LOGGED_PAUSE, STORE[:-1]),
        12,
        f"ReadArchive fault=Truncated at={len(STORE) - 1}",
    ),
    Unopened(
        "another entry beside a store that is none",
        container([*PARTS[:2], (b"store.zip", b"PK"), NOTES]),
        12,
        "ReadArchive fault=BadMagic",
    ),
]

# Bundles with other entries than those of their places, and the first of these.
FOREIGN = [
    ("a fourth entry", [*PARTS, NOTES], "notes"),
    ("another entry first", [NOTES, *PARTS], "notes"),
    ("another entry between", [PARTS[0], NOTES, *PARTS[1:]], "notes"),
    ("log and store exchanged", [PARTS[0], PARTS[2], PARTS[1]], "store.zip"),
    ("the manifest last", [*PARTS[1:], PARTS[0]], "run.log.zst"),
    (
        "another entry beside a part that isn't read",
        [*PARTS[:2], (b"store.zip", container(METADATA[1:])), NOTES],
        "notes",
    ),
]

LONG_LOG_LAST = held(
    (b"manifest.json", MANIFEST), (b"store.zip", STORE), (b"run.log.zst", TWO_SLOTS_LOG)
)

FAULTY = log_of(b"{}")
NO_TEXT = b"\xff\n"
BAD_SCOPE = (b"meta/build-scope.json", b"{}")

# Logs and stores of which a part isn't read.
UNREAD = [
    Unread("no build scope", LOGGED_PAUSE, METADATA[1:], f"{MISSING}meta/build-scope.json"),
    Unread(
        "no test list", LOGGED_PAUSE, [METADATA[0], *METADATA[2:]], f"{MISSING}meta/test-list.json"
    ),
    Unread(
        "no cargo metadata",
        LOGGED_PAUSE,
        [*METADATA[:2], METADATA[3]],
        f"{MISSING}meta/cargo-metadata.json",
    ),
    Unread("no record options", LOGGED_PAUSE, METADATA[:3], f"{MISSING}meta/record-opts.json"),
    Unread(
        "a build scope that is none",
        LOGGED_PAUSE,
        [BAD_SCOPE, *METADATA[1:]],
        f"{NO_ITEM}meta/build-scope.json",
    ),
    Unread(
        "rerun info that is none",
        LOGGED_PAUSE,
        [*METADATA, (b"meta/rerun-info.json", b"{}")],
        f"{NO_ITEM}meta/rerun-info.json",
    ),
    Unread(
        "a test list that is none",
        LOGGED_PAUSE,
        with_part(b"meta/test-list.json", b"[]"),
        f"{NO_ITEM}meta/test-list.json",
    ),
    Unread(
        "cargo metadata that is no text",
        LOGGED_PAUSE,
        with_part(b"meta/cargo-metadata.json", b"\xff"),
        "Read NotUtf8 file_name=meta/cargo-metadata.json",
    ),
    Unread(
        "record options that are none",
        LOGGED_PAUSE,
        with_part(b"meta/record-opts.json", b"{}"),
        f"{NO_ITEM}meta/record-opts.json",
    ),
    Unread(
        "a line that is no event",
        LOGGED_PAUSE + b"\n" + FAULTY,
        METADATA,
        "Read ParseEvent line_number=3",
        5,
    ),
    Unread(
        "a line that is no text",
        LOGGED_PAUSE + NO_TEXT + FAULTY,
        METADATA,
        "Read ReadRunLog line_number=2",
        5,
    ),
    Unread("no output", TWO_SLOTS_LOG, METADATA, f"{MISSING}{FIRST[0].decode()}"),
    Unread("no second output", TWO_SLOTS_LOG, [*METADATA, FIRST], f"{MISSING}{SECOND[0].decode()}"),
    Unread(
        "rerun info that is none before a faulty line",
        FAULTY,
        [*METADATA, (b"meta/rerun-info.json", b"{}")],
        f"{NO_ITEM}meta/rerun-info.json",
    ),
    Unread(
        "no record options before a faulty line",
        FAULTY,
        METADATA[:3],
        f"{MISSING}meta/record-opts.json",
    ),
    Unread(
        "a faulty line before a missing output",
        TWO_SLOTS_LOG + FAULTY,
        METADATA,
        "Read ParseEvent line_number=15",
        5,
    ),
    Unread(
        "a missing output before a foreign entry",
        TWO_SLOTS_LOG,
        [NOTES, *METADATA],
        f"{MISSING}{FIRST[0].decode()}",
    ),
]

# Stores with entries that are no metadata and that no event names, and the first of these.
UNNAMED = [
    ("another entry", [*METADATA, NOTES], "notes"),
    ("an output", [FIRST, *METADATA], FIRST[0].decode()),
    ("the first of two", [*METADATA[:2], SECOND, FIRST, *METADATA[2:]], SECOND[0].decode()),
]

# Logs, and the outputs that their events name in this order: a setup script, an attempt and a test
# with two attempts, beside a pause; both streams of a process, standard error before standard
# output and cut; and processes without bytes.
NAMING: list[tuple[str, bytes, list[Entry]]] = [
    (
        "events of all kinds",
        LOGGED_PAUSE + log_of(SCRIPT_LINE, FAILED_LINE, TWO_ATTEMPTS_LINE),
        STORED_OF_ALL_KINDS,
    ),
    ("two attempts", log_of(TWO_ATTEMPTS_LINE), STORED_OF_ALL_KINDS[::2]),
    (
        "both streams",
        log_of(
            logged(
                '{"output":{"output":{"split":{"stderr":{"truncated":{"file-name":'
                '"0000000000000007-stderr","original-size":9}},'
                '"stdout":{"full":"0000000000000007-stdout"}}}}}'
            )
        ),
        [(b"out/0000000000000007-stdout", b"abc"), (b"out/0000000000000007-stderr", b"hello")],
    ),
    (
        "processes without bytes",
        log_of(
            logged('{"output":{"output":{"split":{"stderr":"empty"}}}}'),
            logged('{"start-error":"no such file"}'),
        ),
        [],
    ),
]


def naming(name: str, log: bytes, outputs: Sequence[Entry]) -> Iterator[Case]:
    """The cases of a log whose events name these outputs: all are there, and then the first that is
    missing is said.
    """
    yield upgraded(f"of {name}", bundle(log, container([*METADATA, *outputs])), whole(log, outputs))
    for count, (missing, _) in enumerate(outputs):
        stored = container([*METADATA, *outputs[:count]])
        yield refused(
            f"of {name} with {count} outputs",
            bundle(log, stored),
            12,
            f"{MISSING}{missing.decode()}",
        )


LONG = (FIRST[0], b"x" * 9001)
RERUN_METADATA = [METADATA[0], (b"meta/rerun-info.json", RERUN_WRITTEN), *METADATA[1:]]


def above(limit: int, name: str, size: int) -> str:
    """What is said of an entry above the read limit."""
    return f"FileTooLarge file_name={name} size={size} limit={limit}"


def long_part(name: bytes) -> Case:
    """The case of a store in which the entry of this name has blanks up to 1001 bytes."""
    stored = container(
        [(entry, kept.ljust(1001) if entry == name else kept) for entry, kept in RERUN_METADATA]
    )
    line = f"Read {above(1000, name.decode(), 1001)}"
    return refused(
        f"of a long {name.decode()}",
        bundle(LOGGED_PAUSE, stored),
        7,
        line,
        ("--read-limit", "1000"),
    )


CASES = [
    upgraded("of a store of version 3.0", whole(LOGGED_PAUSE, store_version=STORE_3_0), PAUSED),
    upgraded("of an older format", older(PAUSED), PAUSED),
    upgraded("of what is written", PAUSED, PAUSED),
    upgraded("of a recording", Recorded(SMALL_SESSION), ONE_TEST_RECORDED),
    upgraded("of a recording of a head alone", Recorded(HEAD), HEAD_ALONE),
    upgraded("of other members and sizes", bundle(LOGGED_PAUSE, STORE, SPELLED_MANIFEST), PAUSED),
    upgraded("of a manifest without defaults", bundle(LOGGED_PAUSE, STORE, SHORT_MANIFEST), PAUSED),
    *[
        upgraded(f"of {name}", bundle(given, STORE), whole(written))
        for name, (given, written) in LOGS.items()
    ],
    *[
        upgraded(f"of {name}", bundle(log, container(given)), whole(*written))
        for name, (log, given, written) in STORES.items()
    ],
    *[
        refused(f"of {name}", given, status, f"Open {line}")
        for name, given, status, line in UNOPENED
    ],
    refused(
        "above the session limit", PAUSED, 4, "Open SpoolTooLarge limit=9", ("--session-limit", "9")
    ),
    refused(
        "of a manifest above the limit",
        PAUSED,
        7,
        f"Open {above(9, 'manifest.json', len(MANIFEST_OF_PAUSE))}",
        ("--read-limit", "9"),
    ),
    refused(
        "of a log above the limit",
        whole(TWO_SLOTS_LOG, OUTPUTS),
        7,
        f"Open {above(1000, 'run.log.zst', len(TWO_SLOTS_LOG))}",
        ("--read-limit", "1000"),
    ),
    refused(
        "of a log above the limit after the store",
        LONG_LOG_LAST,
        7,
        f"Open {above(1000, 'run.log.zst', len(TWO_SLOTS_LOG))}",
        ("--read-limit", "1000"),
    ),
    *[
        refused(f"of {name}", container(entries), 12, f"ForeignEntry file_name={first}")
        for name, entries, first in FOREIGN
    ],
    *[
        refused(f"of {name}", bundle(log, container(entries)), status, line)
        for name, log, entries, line, status in UNREAD
    ],
    *[
        refused(
            f"of {name} in the store",
            bundle(LOGGED_PAUSE, container(entries)),
            12,
            f"ForeignEntry file_name={first}",
        )
        for name, entries, first in UNNAMED
    ],
    *[case for row in NAMING for case in naming(*row)],
    refused(
        "of an output above the limit",
        whole(ONE_TEST_LOG, [LONG]),
        7,
        f"Read {above(9000, LONG[0].decode(), 9001)}",
        ("--read-limit", "9000"),
    ),
    *[long_part(name) for name, _ in RERUN_METADATA],
    refused(
        "of a manifest that is written longer",
        bundle(LOGGED_PAUSE, STORE, SHORT_MANIFEST),
        7,
        above(len(SHORT_MANIFEST), "manifest.json", len(MANIFEST_OF_PAUSE)),
        ("--read-limit", str(len(SHORT_MANIFEST))),
    ),
    # No file has the empty word as its path.
    Case("upgrade into no file", ("upgrade", ""), PAUSED, status=10, err=b"BundleFault\n"),
]
