"""Which bundles are opened, what `info` and `trace` print of them, and why others are refused."""

from __future__ import annotations

from collections.abc import Iterator
from typing import NamedTuple

from workshop.cases.case import SOME, Case, Recorded, Wanted
from workshop.cases.made import bundle, held, log_of
from workshop.cases.texts import (
    COUNTED_MANIFEST,
    EMPTY_TRACE,
    HEAD,
    MANIFEST,
    MANIFEST_3_0,
    NEWER_STORE,
    OLDER_STORE,
    RUN_PAUSED,
    RUN_STARTED,
    SMALL_SESSION,
    SMALL_TRACE,
    SMALL_TRACE_BY_SLOT,
    replaced,
)
from workshop.oracle.container import container

COMMANDS = ("info", "trace")
MANIFEST_LINE = MANIFEST + b"\n"

# Bytes that are no bundle, and what is wrong with them.
DAMAGED = [
    (b"PK", b"ReadArchive fault=BadMagic\n"),
    (b"nxtcont2\0", b"ReadArchive fault=BadMagic\n"),
    (b"nxtcont1\x01\0", b"ReadArchive fault=Truncated at=9\n"),
    (b"nxtcont1\x01\0\x02a", b"ReadArchive fault=Truncated at=11\n"),
    (b"nxtcont1\x01\0\x01a\0\0\0", b"ReadArchive fault=Truncated at=12\n"),
    (b"nxtcont1\x01\0\x01a\0\0\0\0\0\0\0\x01", b"ReadArchive fault=Truncated at=20\n"),
    (b"nxtcont1\x01\0\x01a\0\0\0\0\0\0\0\x01x", b"ReadArchive fault=Truncated at=21\n"),
    (b"nxtcont1\0x", b"ReadArchive fault=TrailingBytes at=9\n"),
    (b"nxtcont1\x02", b"ReadArchive fault=BadTag at=8\n"),
    (b"nxtcont1\x01\0\x01\xff", b"ReadArchive fault=BadName at=11\n"),
    (
        b"nxtcont1\x01\0\x01a\0\0\0\0\0\0\0\0\x01\0\x01a\0\0\0\0\0\0\0\0\0",
        b"ReadArchive fault=DuplicateName at=23\n",
    ),
    (
        b"nxtcont1\x01\0\x01a\0\0\0\0\0\0\0\x01x\x01\0\x01a\0\0\0\0\0\0\0\0\0",
        b"ReadArchive fault=DuplicateName at=24\n",
    ),
    (
        b"nxtcont1\x01\0\x01b\0\0\0\0\0\0\0\0\x01\0\x01a\0\0\0\0\0\0\0\0"
        b"\x01\0\x01a\0\0\0\0\0\0\0\0",
        b"ReadArchive fault=DuplicateName at=35\n",
    ),
    (b"nxtcont1\0", b"NotAWrapperArchive file_count=0 zip_count=0\n"),
    (
        b"nxtcont1\x01\0\x05x.zip\0\0\0\0\0\0\0\0\0",
        b"NotAWrapperArchive file_count=1 zip_count=1\n",
    ),
    (
        b"nxtcont1\x01\0\x01x\0\0\0\0\0\0\0\0\x01\0\x06x.zip/\0\0\0\0\0\0\0\0\0",
        b"NotAWrapperArchive file_count=1 zip_count=0\n",
    ),
]

# The same of `trace`; what `info` says of these stands in `hostile`.
TRACED_DAMAGE = [
    (b"", b"ReadArchive fault=BadMagic\n"),
    (b"nxtcont1", b"ReadArchive fault=Truncated at=8\n"),
    (b"nxtcont1\x01\0\0", b"ReadArchive fault=BadName at=9\n"),
]

# Bytes of at most ten that are no container, and longer ones.
NO_CONTAINERS = (
    ("a container's begin", b"nxtcont1", b"ReadArchive fault=Truncated at=8\n"),
    ("two ends", b"nxtcont1\0\0", b"ReadArchive fault=TrailingBytes at=9\n"),
    ("a zip file's begin", b"PK", b"ReadArchive fault=BadMagic\n"),
    ("no bytes", b"", b"ReadArchive fault=BadMagic\n"),
)

# Manifests by the version of the format and that of the store.

FORMAT_1_0, FORMAT_1_1 = b'{"major":1,"minor":0}', b'{"major":1,"minor":1}'
FORMAT_1_2, FORMAT_2_0 = b'{"major":1,"minor":2}', b'{"major":2,"minor":0}'
STORE_3 = b'"store-format-version":3'
STORE_3_0 = b'"store-format-minor-version":0,"store-format-version":3'
STORE_3_1 = b'"store-format-minor-version":1,"store-format-version":3'
STORE_3_2 = b'"store-format-minor-version":2,"store-format-version":3'
STORE_2, STORE_4 = b'"store-format-version":2', b'"store-format-version":4'


def manifest(format_version: bytes, store_version: bytes) -> bytes:
    """A manifest of these versions, with other sizes than those of a head alone."""
    return replaced(
        replaced(COUNTED_MANIFEST, FORMAT_1_1, format_version), STORE_3_1, store_version
    )


CURRENT = bundle(manifest=MANIFEST_3_0)
EMPTY = bundle(manifest=b"{}")


def bundle_with(name: bytes) -> bytes:
    """The bundle of a manifest and another entry."""
    return held((b"manifest.json", MANIFEST_3_0), (name, b"kept"))


OTHER_BUNDLE = (
    b"UnsupportedFormatVersion found=2.%d supported=1.1 incompatibility=MajorMismatch "
    b"recording_major=2 supported_major=1\n"
)
NEWER_BUNDLE = (
    b"UnsupportedFormatVersion found=1.2 supported=1.1 incompatibility=MinorTooNew "
    b"recording_minor=2 supported_minor=1\n"
)

# What stands in the place of a text of the manifest, and why the manifest isn't read then.
REFUSED_MANIFESTS = [
    (b'"run":', b'"ru":', b"ParseManifest\n"),
    (b"550e8400", b"x", b"ParseManifest\n"),
    (b'"minor":1', b'"minor":2', NEWER_BUNDLE),
    (b'"major":1', b'"major":2', OTHER_BUNDLE % 1),
    (STORE_3_1, STORE_2, OLDER_STORE),
    (
        STORE_3_1,
        b'"store-format-version":1',
        b"UnsupportedStoreFormatVersion found=1.0 supported=3.1 incompatibility=RecordingTooOld "
        b"recording_major=1 supported_major=3 guidance=Discard last_nextest_version=0.9.130\n",
    ),
    (
        STORE_3_1,
        b'"store-format-version":0',
        b"UnsupportedStoreFormatVersion found=0.0 supported=3.1 incompatibility=RecordingTooOld "
        b"recording_major=0 supported_major=3 guidance=Unknown\n",
    ),
    (
        STORE_3_1,
        STORE_4,
        b"UnsupportedStoreFormatVersion found=4.0 supported=3.1 incompatibility=RecordingTooNew "
        b"recording_major=4 supported_major=3\n",
    ),
    (STORE_3_1, STORE_3_2, NEWER_STORE),
]

# A manifest of which neither version is read.
OF_OTHER_VERSIONS = replaced(
    replaced(MANIFEST, b'"minor":1', b'"minor":2'),
    b'"store-format-version":3',
    b'"store-format-version":2',
)

# The version of the store isn't read where that of the format isn't, and is judged after it.
OTHER_VERSIONS = (
    ("format 2.0, store 4", FORMAT_2_0, STORE_4, OTHER_BUNDLE % 0),
    ("format 2.0, store 3.0", FORMAT_2_0, STORE_3_0, OTHER_BUNDLE % 0),
    ("format 1.2, store 4", FORMAT_1_2, STORE_4, NEWER_BUNDLE),
    ("store 3.2", FORMAT_1_1, STORE_3_2, NEWER_STORE),
    ("store 2", FORMAT_1_1, STORE_2, OLDER_STORE),
)

# Bundles that are opened, with what `info` prints of them.
OPENED = (
    ("a current bundle", CURRENT, MANIFEST_3_0),
    (
        "format 1.0",
        bundle(manifest=manifest(FORMAT_1_0, STORE_3_0)),
        manifest(FORMAT_1_0, STORE_3_0),
    ),
    ("store 3", bundle(manifest=manifest(FORMAT_1_1, STORE_3)), MANIFEST_3_0),
    (
        "store 3.1",
        bundle(manifest=manifest(FORMAT_1_1, STORE_3_1)),
        manifest(FORMAT_1_1, STORE_3_1),
    ),
    ("an empty store", bundle(b"lo", b"nxtcont1\0", MANIFEST_3_0), MANIFEST_3_0),
    ("a store that is no container", bundle(b"lo", b"anything", MANIFEST_3_0), MANIFEST_3_0),
    ("another entry alone", bundle_with(b"x"), MANIFEST_3_0),
)

# Parts and logs.

MANIFEST_ALONE = held((b"manifest.json", MANIFEST))
WITHOUT_STORE = held((b"run.log.zst", b""), (b"manifest.json", MANIFEST))

FOLDERS = container([(name, b"") for name in (b"a/", b"b.zip/", b"c\\", b"d.ZIP", b"e/f")])
NO_BUNDLES = (
    ("three folders and two files", FOLDERS, b"NotAWrapperArchive file_count=2 zip_count=1\n"),
    ("an empty manifest", EMPTY, b"ParseManifest\n"),
)

LATE = replaced(RUN_STARTED, b'"secs":1000', b'"secs":9223372036854775807')


class Log(NamedTuple):
    """What a log holds, the log, and the status and the line of its trace."""

    name: str
    log: bytes
    status: int
    line: bytes


LOGS = [
    Log("a run", log_of(RUN_STARTED, b"", b""), 0, b""),
    Log(
        "no event after a run",
        log_of(RUN_STARTED, b"", b"{}"),
        5,
        b"ReadError ParseEvent line_number=3\n",
    ),
    Log(
        "a second run",
        log_of(RUN_STARTED, b"", RUN_STARTED),
        8,
        b"SpanAlreadyOpen event=2 span=Run\n",
    ),
    Log(
        "no event after two runs",
        log_of(RUN_STARTED, RUN_STARTED, b"{}"),
        8,
        b"SpanAlreadyOpen event=2 span=Run\n",
    ),
    Log(
        "no event before two runs",
        log_of(b"{}", RUN_STARTED, RUN_STARTED),
        5,
        b"ReadError ParseEvent line_number=1\n",
    ),
    Log("a pause", log_of(RUN_STARTED, RUN_PAUSED, b""), 0, b""),
    Log("an instant out of range", log_of(LATE, b"", b""), 9, b"TimestampOutOfRange event=1\n"),
    Log("a line that is no text", b"\n\xff\n{}", 5, b"ReadError ReadRunLog line_number=2\n"),
]

# A run that is paused, a blank line, a line that is no event, and a run that goes on.
PAUSED_LOG = (
    b'{"elapsed":{"nanos":0,"secs":2},"kind":"run-paused","running":1,"setup-scripts-running":0,'
    b'"timestamp":{"nanos":0,"offset":0,"secs":1002}}\n\nno event\n{"elapsed":{"nanos":0,"secs":3},'
    b'"kind":"run-continued","running":1,"setup-scripts-running":0,"timestamp":{"nanos":0,'
    b'"offset":0,"secs":1003}}\n'
)

BLANKS = bundle(b" " * 1000, b"", MANIFEST_3_0)

# Limits over the bundle of a head alone, which has 1052 bytes, and what comes of them.
LIMITS = [
    ("--session-limit", "1052", 0, b""),
    ("--session-limit", "1051", 4, b"SpoolTooLarge limit=1051\n"),
    ("--session-limit", "0", 4, b"SpoolTooLarge limit=0\n"),
    ("--read-limit", "462", 0, b""),
    ("--read-limit", "461", 7, b"FileTooLarge file_name=manifest.json size=462 limit=461\n"),
]

# Bytes that are no bundle, and what comes of them under a session limit of 10.
SPOOLED = [
    (b"01234567890", 4, b"SpoolTooLarge limit=10\n"),
    (b"0123456789", 12, b"ReadArchive fault=BadMagic\n"),
    (b"n" * 1_000_000, 4, b"SpoolTooLarge limit=10\n"),
]


def printed(status: int) -> Wanted:
    """What is said of standard output at the end with this status."""
    return SOME if status == 0 else b""


def short_enough(name: str, option: str, length: int, status: int, line: bytes) -> Iterator[Case]:
    """A bundle that is just short enough for a limit, and too long for the one below."""
    yield Case(name, ("info", option, str(length)), CURRENT, out=MANIFEST_3_0 + b"\n")
    yield Case(
        f"{name}, and a byte too long",
        ("info", option, str(length - 1)),
        CURRENT,
        status,
        err=line % (length - 1),
    )


CASES = [
    Case("the manifest", ("info",), Recorded(HEAD), out=MANIFEST_LINE),
    # A member that no field reads goes, and a blank too.
    Case(
        "the manifest anew",
        ("info",),
        bundle(manifest=replaced(MANIFEST, b'{"format', b'{ "x":1,"format')),
        out=MANIFEST_LINE,
    ),
    Case(
        "the trace that the recording printed", ("trace",), Recorded(SMALL_SESSION), out=SMALL_TRACE
    ),
    Case(
        "the trace by binary",
        ("trace", "--group-by", "binary"),
        Recorded(SMALL_SESSION),
        out=SMALL_TRACE,
    ),
    Case(
        "the trace by slot",
        ("trace", "--group-by", "slot"),
        Recorded(SMALL_SESSION),
        out=SMALL_TRACE_BY_SLOT,
    ),
    *[
        Case(f"trace of the bytes {source!r}", ("trace",), source, 12, err=line)
        for source, line in TRACED_DAMAGE
    ],
    *[
        Case(f"{command} of the bytes {source!r}", (command,), source, 12, err=line)
        for source, line in DAMAGED
        for command in COMMANDS
    ],
    *[
        Case(
            f"{command} with {new!r} in the manifest",
            (command,),
            bundle(manifest=replaced(MANIFEST, old, new)),
            12,
            err=line,
        )
        for old, new, line in REFUSED_MANIFESTS
        for command in COMMANDS
    ],
    *[
        Case(
            f"{command} of the manifest {text!r}",
            (command,),
            bundle(manifest=text),
            12,
            err=b"ParseManifest\n",
        )
        for text in (b"", b"{")
        for command in COMMANDS
    ],
    Case(
        "the version of the bundle is judged before that of the store",
        ("info",),
        bundle(manifest=OF_OTHER_VERSIONS),
        12,
        err=NEWER_BUNDLE,
    ),
    Case("info without a log", ("info",), MANIFEST_ALONE, out=MANIFEST_LINE),
    Case(
        "trace without a log",
        ("trace",),
        MANIFEST_ALONE,
        12,
        err=b"MissingFile file_name=run.log.zst\n",
    ),
    *[
        Case(f"{command} without a store", (command,), WITHOUT_STORE, out=SOME)
        for command in COMMANDS
    ],
    *[
        Case(f"{command} with a broken store", (command,), bundle(stored=b"PK"), out=SOME)
        for command in COMMANDS
    ],
    *[
        Case(f"info beside {what} in the log", ("info",), bundle(log), out=MANIFEST_LINE)
        for what, log, _, _ in LOGS
    ],
    *[
        Case(f"trace of {what} in the log", ("trace",), bundle(log), status, printed(status), line)
        for what, log, status, line in LOGS
    ],
    *[
        Case(
            f"{command} {option} {value}",
            (command, option, value),
            Recorded(HEAD),
            status,
            printed(status),
            line,
        )
        for option, value, status, line in LIMITS
        for command in COMMANDS
    ],
    *[
        Case(
            f"{command} of {len(source)} bytes",
            (command, "--session-limit", "10"),
            source,
            status,
            err=line,
        )
        for source, status, line in SPOOLED
        for command in COMMANDS
    ],
    Case(
        "a log at the read limit",
        ("trace", "--read-limit", "1915"),
        Recorded(SMALL_SESSION),
        out=SMALL_TRACE,
    ),
    Case(
        "a log past the read limit",
        ("trace", "--read-limit", "1914"),
        Recorded(SMALL_SESSION),
        7,
        err=b"FileTooLarge file_name=run.log.zst size=1915 limit=1914\n",
    ),
    Case(
        "info past the read limit of the log",
        ("info", "--read-limit", "1914"),
        Recorded(SMALL_SESSION),
        out=SOME,
    ),
    *[
        Case(name, ("info", "--session-limit", "10"), data, 12, err=line)
        for name, data, line in NO_CONTAINERS
    ],
    *[Case(name, ("info",), data, 12, err=line) for name, data, line in NO_BUNDLES],
    Case(
        "a long manifest that is empty",
        ("info", "--read-limit", "1"),
        EMPTY,
        7,
        err=b"FileTooLarge file_name=manifest.json size=2 limit=1\n",
    ),
    *[
        Case(name, ("info",), bundle(manifest=manifest(form, store)), 12, err=line)
        for name, form, store, line in OTHER_VERSIONS
    ],
    *[Case(name, ("info",), data, out=text + b"\n") for name, data, text in OPENED],
    *short_enough(
        "a manifest",
        "--read-limit",
        458,
        7,
        b"FileTooLarge file_name=manifest.json size=458 limit=%d\n",
    ),
    *short_enough("a bundle", "--session-limit", len(CURRENT), 4, b"SpoolTooLarge limit=%d\n"),
    *[
        Case(what, ("trace",), bundle(log, b"", MANIFEST_3_0), 5, err=line)
        for what, log, line in [
            (
                "the first line that is no event",
                PAUSED_LOG,
                b"ReadError ParseEvent line_number=3\n",
            ),
            ("a log that isn't UTF-8", b"\xff", b"ReadError ReadRunLog line_number=1\n"),
        ]
    ],
    Case(
        "trace of a store without a log",
        ("trace",),
        bundle_with(b"store.zip"),
        12,
        err=b"MissingFile file_name=run.log.zst\n",
    ),
    Case(
        "trace without a log and a store",
        ("trace",),
        bundle_with(b"x"),
        12,
        err=b"MissingFile file_name=run.log.zst\n",
    ),
    Case("a log of the limit", ("trace", "--read-limit", "1000"), BLANKS, out=EMPTY_TRACE),
    Case(
        "a long log",
        ("trace", "--read-limit", "999"),
        BLANKS,
        7,
        err=b"FileTooLarge file_name=run.log.zst size=1000 limit=999\n",
    ),
]
