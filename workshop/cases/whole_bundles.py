"""Bundles of a run, with the sizes that docs/FORMATS.md gives them, and of what is whole in them.
"""

from __future__ import annotations

from collections.abc import Iterable

from workshop.cases.case import Entry
from workshop.cases.events import attempt_failed, course, standard_output, status, test_finished
from workshop.cases.histories import (
    RUNNING,
    Line,
    counts_of,
    numbered,
    of_number,
    traced_log,
    two_slots,
)
from workshop.cases.made import Members, bundle, compact, duration, instant
from workshop.cases.texts import LOGGED_PAUSE, MANIFEST, METADATA, NO_SIZES, replaced
from workshop.oracle.container import container, entries

# The versions of the formats, as a manifest has them.
FORMAT_1_0, FORMAT_1_1 = (
    b'"format-version":{"major":1,"minor":0}',
    b'"format-version":{"major":1,"minor":1}',
)
STORE_3_0, STORE_3_1 = b'"store-format-minor-version":0', b'"store-format-minor-version":1'


def sizes(log: bytes, stored: bytes) -> Members:
    """The sizes of a log and a store."""
    contents = entries(stored).values()
    events = sum(line.strip() != b"" for line in log.split(b"\n"))
    return {
        "log": {"compressed": len(log), "entries": events, "uncompressed": len(log)},
        "store": {
            "compressed": len(stored),
            "entries": len(contents),
            "uncompressed": sum(map(len, contents)),
        },
    }


def manifest_of(log: bytes, stored: bytes, store_version: bytes = STORE_3_1) -> bytes:
    """The manifest of a run with this log and this store."""
    sized = replaced(MANIFEST, NO_SIZES, b'"sizes":' + compact(sizes(log, stored)))
    return replaced(sized, STORE_3_1, store_version)


def whole(
    log: bytes,
    outputs: Iterable[Entry] = (),
    metadata: Iterable[Entry] = METADATA,
    store_version: bytes = STORE_3_1,
) -> bytes:
    """The bundle of a run with this log, this metadata and these outputs."""
    stored = container([*metadata, *outputs])
    return bundle(log, stored, manifest_of(log, stored, store_version))


def older(written: bytes) -> bytes:
    """A bundle, but for the versions of its formats: 1.0, and 3.0 of its store."""
    return replaced(replaced(written, FORMAT_1_1, FORMAT_1_0), STORE_3_1, STORE_3_0)


PAUSED = whole(LOGGED_PAUSE)

# A run with two slots, a pause and a retry, and two outputs: of the first test, and of an attempt
# that failed.

FIRST = (b"out/ba7816bf8f01cfea-stdout", b"abc")
SECOND = (b"out/2cf24dba5fb0a30e-stdout", b"hello")
OUTPUTS = [FIRST, SECOND]


def wrote(output: Entry, result: object) -> Members:
    """How an attempt went that wrote this output."""
    name = output[0].decode().removeprefix("out/")
    return course(standard_output(name), result, instant(1001), duration(1))


def passed(secs: int, number: int, output: Entry) -> Line:
    """A test passed and wrote this."""
    attempt = status(1, 1, wrote(output, "pass"))
    return of_number(
        secs,
        number,
        -1,
        test_finished(attempt, of=numbered(number), counts=counts_of(0), running=RUNNING),
    )


def failed(secs: int, number: int, output: Entry) -> Line:
    """An attempt of a test failed and wrote this."""
    return of_number(
        secs,
        number,
        -1,
        attempt_failed(status(1, 3, wrote(output, "exec-fail")), numbered(number), running=RUNNING),
    )


TWO_SLOTS = two_slots(passed(1002, 1, FIRST), failed(1007, 2, SECOND))
TWO_SLOTS_LOG = traced_log(TWO_SLOTS)
