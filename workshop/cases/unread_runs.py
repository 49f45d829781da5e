"""Bundles of which `replay` and `report` print nothing: a part is missing, faulty or too long."""

from __future__ import annotations

from typing import NamedTuple

from workshop.cases.case import SOME, Case, Entry
from workshop.cases.made import (
    BENCHMARK,
    NO_TESTS,
    OPTIONS,
    bundle,
    held,
    log_of,
    run_bundle,
    store,
)
from workshop.cases.replay_and_report import (
    LOADED,
    PRINTS,
    REPORTED,
    SKIPPED,
    TWO_TESTS,
    UNREADABLE,
    UNREADABLE_1,
    refused,
    stored,
)
from workshop.cases.texts import HEAD, HEADER, MANIFEST_3_0, RUN_STARTED, TEST_STARTED, replaced
from workshop.oracle.container import container

# Parts that are missing or faulty. The log isn't UTF-8, or has two blank lines before a line that
# is no event.


class Parts(NamedTuple):
    """What is wrong with a bundle's parts, its log and store, and the line that says so."""

    name: str
    log: bytes | None
    store: bytes | None
    line: bytes


class Unread(NamedTuple):
    """What is wrong with a bundle, the bundle, and the status and the line that say so."""

    name: str
    bundle: bytes
    status: int
    line: bytes


NO_EVENT = b"\n\n{}\n\xFF"

PARTS = (
    Parts("no log and no store", None, None, b"MissingFile file_name=run.log.zst\n"),
    Parts(
        "no log, and a store that is no container",
        None,
        b"PK",
        b"MissingFile file_name=run.log.zst\n",
    ),
    Parts("no store", UNREADABLE, None, b"MissingFile file_name=store.zip\n"),
    Parts("a store that is no container", UNREADABLE, b"PK", b"ReadArchive fault=BadMagic\n"),
    Parts(
        "no options and no test list",
        UNREADABLE,
        stored(None, None),
        b"FileNotFound file_name=meta/record-opts.json\n",
    ),
    Parts(
        "options without a mode",
        UNREADABLE,
        stored(b"{}", None),
        b"DeserializeMetadata file_name=meta/record-opts.json\n",
    ),
    Parts(
        "no test list",
        UNREADABLE,
        stored(tests=None),
        b"FileNotFound file_name=meta/test-list.json\n",
    ),
    Parts(
        "a test list without suites",
        UNREADABLE,
        stored(tests=b"[]"),
        b"DeserializeMetadata file_name=meta/test-list.json\n",
    ),
)

# Other bundles of which no event is printed, by what is wrong with them, and the status and the
# line of each command.

UNKNOWN_T1 = b"TestNotFound binary_id=alpha::a test_name=t1\n"
STRESS_OF_NONE = replaced(
    RUN_STARTED, b'"cli-args":[]', b'"cli-args":[],"stress-condition":{"count":0}'
)
OTHER_TEST = replaced(
    TEST_STARTED, b'{"binary-id":"alpha::a","test-name":"t1"}', b'{"binary-id":"a","test-name":"t"}'
)

REFUSED = [
    Unread("no log", bundle(None, store()), 12, b"MissingFile file_name=run.log.zst\n"),
    Unread("no store", bundle(b"x", None), 12, b"MissingFile file_name=store.zip\n"),
    Unread("a store of other bytes", bundle(b"", b"PK"), 12, b"ReadArchive fault=BadMagic\n"),
    Unread(
        "a store that is cut", bundle(b"", b"nxtcont1"), 12, b"ReadArchive fault=Truncated at=8\n"
    ),
    Unread(
        "neither options nor tests",
        bundle(b"", store(None, None)),
        12,
        b"FileNotFound file_name=meta/record-opts.json\n",
    ),
    Unread(
        "another mode",
        bundle(b"", store(b'{"run-mode":"x"}')),
        12,
        b"DeserializeMetadata file_name=meta/record-opts.json\n",
    ),
    Unread(
        "no tests",
        bundle(b"", store(OPTIONS, None)),
        12,
        b"FileNotFound file_name=meta/test-list.json\n",
    ),
    Unread(
        "tests without suites",
        bundle(b"", store(OPTIONS, b"{}")),
        12,
        b"DeserializeMetadata file_name=meta/test-list.json\n",
    ),
    Unread(
        "tests that are no JSON",
        bundle(b"{}", store(OPTIONS, b"x")),
        12,
        b"DeserializeMetadata file_name=meta/test-list.json\n",
    ),
    Unread(
        "no event after blank lines", bundle(b"\n\n{}", store()), 5, b"ParseEvent line_number=3\n"
    ),
    Unread("no event in line 4", bundle(b"\n\n\n{}", store()), 5, b"ParseEvent line_number=4\n"),
    Unread(
        "no event in the first line", bundle(b"x\n{}", store()), 5, b"ParseEvent line_number=1\n"
    ),
    Unread("neither an event nor a store", bundle(b"x", b""), 12, b"ReadArchive fault=BadMagic\n"),
    Unread("an unknown test first", bundle(log_of(TEST_STARTED, b"{}"), store()), 13, UNKNOWN_T1),
    Unread(
        "an unknown test after the run",
        bundle(log_of(RUN_STARTED, TEST_STARTED), store()),
        13,
        UNKNOWN_T1,
    ),
    Unread(
        "another unknown test",
        bundle(log_of(OTHER_TEST), store()),
        13,
        b"TestNotFound binary_id=a test_name=t\n",
    ),
    Unread(
        "no event before an unknown test",
        bundle(log_of(b"{}", TEST_STARTED), store()),
        5,
        b"ParseEvent line_number=1\n",
    ),
    Unread(
        "a stress run of no runs",
        bundle(log_of(RUN_STARTED, STRESS_OF_NONE), store()),
        13,
        b"InvalidStressCount\n",
    ),
    Unread(
        "a line that is no text", bundle(b"\n\xff\n{}", store()), 5, b"ReadRunLog line_number=2\n"
    ),
    Unread(
        "line 3 that is no text", bundle(b"\n\n\xff\n", store()), 5, b"ReadRunLog line_number=3\n"
    ),
    Unread("no entries", b"nxtcont1\0", 12, b"NotAWrapperArchive file_count=0 zip_count=0\n"),
]

# What `replay` says of stores. The record options are read first, and then the test list.

OF_BENCHMARK = b"meta/record-opts.json", BENCHMARK


def of_store(*contents: Entry) -> bytes:
    """The bundle of an empty log, and a store of these contents."""
    return bundle(b"", container(contents), MANIFEST_3_0)


STORES = (
    Unread(
        "no store",
        held((b"manifest.json", MANIFEST_3_0), (b"run.log.zst", b"kept")),
        12,
        b"MissingFile file_name=store.zip\n",
    ),
    Unread(
        "a store that is cut off",
        bundle(b"", b"nxtcont1\x01\x00", MANIFEST_3_0),
        12,
        b"ReadArchive fault=Truncated at=9\n",
    ),
    Unread(
        "a store without entries", of_store(), 12, b"FileNotFound file_name=meta/record-opts.json\n"
    ),
    Unread(
        "no options", of_store((b"x", b"")), 12, b"FileNotFound file_name=meta/record-opts.json\n"
    ),
    Unread(
        "no test list",
        of_store((b"x", b""), OF_BENCHMARK),
        12,
        b"FileNotFound file_name=meta/test-list.json\n",
    ),
    Unread(
        "a long test list",
        of_store((b"meta/test-list.json", b" " * 1001), OF_BENCHMARK),
        7,
        b"FileTooLarge file_name=meta/test-list.json size=1001 limit=1000\n",
    ),
    Unread(
        "a blank test list",
        of_store((b"meta/test-list.json", b" " * 1000), OF_BENCHMARK),
        12,
        b"DeserializeMetadata file_name=meta/test-list.json\n",
    ),
)

# Parts of a length, with blanks after their texts.


def of_log(length: int) -> bytes:
    return run_bundle(b"\n".ljust(length), stored())


def of_options(length: int) -> bytes:
    return run_bundle(b"\n", stored(options=OPTIONS.ljust(length)))


def of_tests(length: int) -> bytes:
    return run_bundle(b"\n", stored(tests=TWO_TESTS.ljust(length)))


LIMIT_900 = ("--read-limit", "900")

# Record options of 500 bytes.
LONG_OPTIONS = bundle(b"", store(OPTIONS + b" " * 481, NO_TESTS))
LONG_OPTIONS_LINE = b"FileTooLarge file_name=meta/record-opts.json size=500 limit=499\n"

CASES = [
    *[
        case
        for name, log, store, line in PARTS
        for case in refused(name, run_bundle(log, store), 12, line)
    ],
    *refused("a log that isn't UTF-8", run_bundle(UNREADABLE, stored()), *UNREADABLE_1),
    *refused(
        "a line that is no event", run_bundle(NO_EVENT, stored()), 5, b"ParseEvent line_number=3\n"
    ),
    *refused(
        "a long log",
        of_log(901),
        7,
        b"FileTooLarge file_name=run.log.zst size=901 limit=900\n",
        *LIMIT_900,
    ),
    *refused(
        "long options",
        of_options(901),
        7,
        b"FileTooLarge file_name=meta/record-opts.json size=901 limit=900\n",
        *LIMIT_900,
    ),
    *refused(
        "a long list",
        of_tests(901),
        7,
        b"FileTooLarge file_name=meta/test-list.json size=901 limit=900\n",
        *LIMIT_900,
    ),
    Case("options of the limit, replayed", (*LOADED, *LIMIT_900), of_options(900), out=HEADER),
    Case("options of the limit, reported", (*REPORTED, *LIMIT_900), of_options(900)),
    Case("a test list of the limit, replayed", (*LOADED, *LIMIT_900), of_tests(900), out=HEADER),
    Case("a test list of the limit, reported", (*REPORTED, *LIMIT_900), of_tests(900)),
    *[
        Case(f"{' '.join(words)} of {what}", words, source, status, err=line)
        for what, source, status, line in REFUSED
        for words in PRINTS
    ],
    # What `replay` and `report` say of it without options is among the words.
    Case(
        "replay of a session without outputs",
        SKIPPED,
        HEAD,
        12,
        err=b"ReadArchive fault=BadMagic\n",
    ),
    Case(
        "replay of options past the limit",
        ("replay", "--read-limit", "499"),
        LONG_OPTIONS,
        7,
        err=LONG_OPTIONS_LINE,
    ),
    Case(
        "report of options past the limit",
        ("report", "--read-limit", "499"),
        LONG_OPTIONS,
        7,
        err=LONG_OPTIONS_LINE,
    ),
    Case(
        "replay of options at the limit", ("replay", "--read-limit", "500"), LONG_OPTIONS, out=SOME
    ),
    *[
        Case(
            f"replay under a limit: {name}",
            ("replay", "--read-limit", "1000"),
            data,
            status,
            err=line,
        )
        for name, data, status, line in STORES
    ],
]
