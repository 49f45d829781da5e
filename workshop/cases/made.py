"""Values that are made: JSON texts, lines of events, sessions, logs, stores and bundles."""

from __future__ import annotations

import json
from collections.abc import Iterable, Mapping
from typing import TypeAlias

from workshop.cases.case import Entry
from workshop.cases.texts import COUNTED_MANIFEST, HEAD, MANIFEST, RUN_ID
from workshop.oracle.container import container

# The members of a JSON object by their names.
Members: TypeAlias = Mapping[str, object]

# The record options and the test lists of a run without tests and of one with a test.
OPTIONS = b'{"run-mode":"test"}'
BENCHMARK = b'{"run-mode":"benchmark"}'
NO_TESTS = b'{"suites":{}}'
ONE_TEST = b'{"suites":{"alpha::a":["t1"]}}'
INCOMPLETE = {"status": "incomplete"}


def text(value: object) -> str:
    """The JSON of a value in one line, with the members of objects in their order."""
    return json.dumps(value, separators=(",", ":"), ensure_ascii=False)


def compact(value: object) -> bytes:
    """The same in bytes."""
    return text(value).encode()


def instant(secs: int, nanos: int = 0) -> Members:
    return {"secs": secs, "nanos": nanos, "offset": 0}


def duration(secs: int, nanos: int = 0) -> Members:
    return {"secs": secs, "nanos": nanos}


# Sessions, logs, stores and bundles.


def log_of(*lines: str | bytes) -> bytes:
    """A log of these lines, each of them a text or bytes."""
    return b"".join((line.encode() if isinstance(line, str) else line) + b"\n" for line in lines)


def session(*lines: str | bytes, head: bytes = HEAD) -> bytes:
    """A session of these lines after a head, each with its LF."""
    return log_of(head, *lines)


def held(*contents: tuple[bytes, bytes | None]) -> bytes:
    """A container of those names and contents of which the content isn't None."""
    return container([(name, content) for name, content in contents if content is not None])


def store(
    options: bytes | None = OPTIONS, tests: bytes | None = NO_TESTS, outputs: Iterable[Entry] = ()
) -> bytes:
    """A store of record options, a test list and outputs."""
    return held((b"meta/record-opts.json", options), (b"meta/test-list.json", tests), *outputs)


def bundle(
    log: bytes | None = b"", stored: bytes | None = b"", manifest: bytes = MANIFEST
) -> bytes:
    """A bundle of a manifest, a log and a store."""
    return held((b"manifest.json", manifest), (b"run.log.zst", log), (b"store.zip", stored))


def logged_bundle(log: bytes) -> bytes:
    """A bundle of this log, without a store."""
    return bundle(log, None, COUNTED_MANIFEST)


def manifest(status: Members) -> bytes:
    """The manifest of a run that ended so, in a store of version 3.0."""
    sizes = {
        "log": {"compressed": 0, "uncompressed": 0},
        "store": {"compressed": 0, "uncompressed": 0},
    }
    run = {
        "store-format-version": 3,
        "store-format-minor-version": 0,
        "run-id": RUN_ID,
        "nextest-version": "0.9.111",
        "started-at": instant(1000),
        "last-written-at": instant(1011),
        "sizes": sizes,
        "status": status,
    }
    return compact({"format-version": {"major": 1, "minor": 1}, "run": run})


def run_bundle(log: bytes | None, stored: bytes | None, status: Members | None = None) -> bytes:
    """The bundle of a run that ended so: of a log and a store, where they are there."""
    return bundle(log, stored, manifest(status or INCOMPLETE))


def line(event: Members, at: Members = instant(1002, 5), elapsed: int = 2) -> bytes:
    """The line of an event of this kind and these members, without its LF."""
    times: Members = {"timestamp": at, "elapsed": duration(elapsed)}
    return compact({**times, **event})


def log(events: Iterable[Members]) -> bytes:
    """The log of these events, all of one instant."""
    return log_of(*map(line, events))
