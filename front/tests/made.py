"""Made sessions and bundles, as docs/FORMATS.md says, without the program.

Instants are seconds after the second 1000.
"""

from __future__ import annotations

import hashlib
import json
from collections.abc import Iterable, Mapping, Sequence

from rezovamy_runs.json_values import JsonObject, members_of, text_of
from rezovamy_runs.streams.session_json import stats
from workshop.oracle.container import container

START = 1000
ID = "0a1b2c3d-0000-4000-8000-000000000001"
HEAD: JsonObject = {
    "run-id": "550e8400-e29b-41d4-a716-446655440000",
    "nextest-version": "0.9.111",
    "cli-args": ["--no-fail-fast"],
    "started-at": {"secs": 1000, "nanos": 0, "offset": 0},
    "last-written-at": {"secs": 1011, "nanos": 0, "offset": 0},
    "status": {
        "status": "completed",
        "initial-run-count": 2,
        "passed": 1,
        "failed": 1,
        "exit-code": 101,
    },
}


def span(seconds: float) -> JsonObject:
    """A length of time."""
    nanos = round(seconds * 10**9)
    return {"secs": nanos // 10**9, "nanos": nanos % 10**9}


def instant(seconds: float) -> JsonObject:
    """An instant so many seconds after the start."""
    return {**span(START + seconds), "offset": 0}


# Sizes of a log or a store, which no reader of a bundle judges.
SIZES = {"compressed": 0, "uncompressed": 0, "entries": 0}

# Events and what they have.


def event(kind: str, seconds: float, **members: object) -> JsonObject:
    """An event so many seconds after the start. Members are named with `_` for `-`."""
    return {"timestamp": instant(seconds), "elapsed": span(seconds), "kind": kind, **named(members)}


def named(members: Mapping[str, object]) -> JsonObject:
    """Members whose names have `-` in place of `_`, as Python takes no other names."""
    return {name.replace("_", "-"): value for name, value in members.items()}


def test_of(name: str) -> JsonObject:
    """What a test of the binary `alpha` is known by."""
    return {"binary-id": "alpha", "test-name": name}


def of_test(kind: str, seconds: float, name: str, **members: object) -> JsonObject:
    """An event of a test of the binary `alpha`."""
    return event(kind, seconds, test_instance=test_of(name), **members)


def slot_of(number: int) -> JsonObject:
    """A slot on which an attempt runs."""
    return {"global-slot": number, "test-group": "@global"}


def attempt_of(number: int, total: int) -> JsonObject:
    """Which attempt it is, of how many."""
    return {"attempt": number, "total-attempts": total}


def started(seconds: float, name: str, slot: int = 3) -> JsonObject:
    """A test started."""
    return of_test(
        "test-started",
        seconds,
        name,
        slot_assignment=slot_of(slot),
        current_stats=stats(1),
        running=1,
        command_line=[],
    )


def retried(seconds: float, name: str, attempt: int, total: int, slot: int = 3) -> JsonObject:
    """A further attempt of a test started."""
    return of_test(
        "test-retry-started",
        seconds,
        name,
        slot_assignment=slot_of(slot),
        retry_data=attempt_of(attempt, total),
        running=1,
        command_line=[],
    )


def exit_code(code: int = 101) -> JsonObject:
    """The result of an attempt that ended with an exit code."""
    return {"fail": {"failure": {"exit-code": code}, "leaked": False}}


def status(
    seconds: float,
    took: float,
    result: object = "pass",
    attempt: int = 1,
    total: int = 1,
    output: object = None,
    **streams: bytes,
) -> JsonObject:
    """The status of an attempt that started so many seconds after the start.

    It has an output, or the bytes that the attempt printed.
    """
    printed: JsonObject = {stream: data.hex() for stream, data in streams.items()}
    captured = printed if "combined" in printed else {"split": printed}
    return {
        "retry-data": attempt_of(attempt, total),
        "output": output or {"output": {"output": captured}},
        "result": result,
        "start-time": instant(seconds),
        "time-taken": span(took),
        "is-slow": False,
        "delay-before-start": span(0),
    }


def failed(seconds: float, name: str, attempt: object) -> JsonObject:
    """An attempt failed, after which another one follows."""
    return of_test(
        "test-attempt-failed-will-retry",
        seconds,
        name,
        run_status=attempt,
        delay_before_next_attempt=span(0),
        failure_output="never",
        running=1,
    )


def finished(seconds: float, name: str, *attempts: object, flaky: str = "pass") -> JsonObject:
    """A test ended after these attempts."""
    return of_test(
        "test-finished",
        seconds,
        name,
        success_output="never",
        failure_output="never",
        junit_store_success_output=False,
        junit_store_failure_output=False,
        junit_flaky_fail_status="failure",
        run_statuses={"statuses": list(attempts), "flaky-result": flaky},
        current_stats=stats(1),
        running=0,
    )


def skipped(seconds: float, name: str) -> JsonObject:
    """A test was left out."""
    return of_test("test-skipped", seconds, name, reason="ignored", junit_report_skipped="all")


def run_started(
    seconds: float = 0, profile: str = "default", cli_args: Sequence[str] = ("cargo", "test")
) -> JsonObject:
    """A run started."""
    return event("run-started", seconds, run_id=ID, profile_name=profile, cli_args=list(cli_args))


def paused(seconds: float) -> JsonObject:
    """A run was paused."""
    return event("run-paused", seconds, setup_scripts_running=0, running=1)


def continued(seconds: float) -> JsonObject:
    """A run went on."""
    return event("run-continued", seconds, setup_scripts_running=0, running=1)


def script_events(begin: float, end: float, ended: object) -> list[JsonObject]:
    """The only setup script started, and ended with this status."""
    script: JsonObject = {
        "script_id": "database",
        "index": 0,
        "total": 1,
        "program": "sh",
        "args": ["-c", "start"],
        "no_capture": False,
    }
    return [
        event("setup-script-started", begin, **script),
        event("setup-script-finished", end, **script, run_status=ended),
    ]


def run_finished(
    seconds: float, took: float, flaky: int = 0, skipped_count: int = 0, **more: object
) -> JsonObject:
    """A run finished."""
    counts = {**stats(1), "flaky": flaky, "skipped": skipped_count}
    return event(
        "run-finished",
        seconds,
        run_id=ID,
        start_time=instant(0),
        run_elapsed=span(took),
        run_stats={"single": counts},
        **more,
    )


def completed(passed: int, failed_count: int, code: int = 0) -> JsonObject:
    """The status of a run that went to its end."""
    return {
        "status": "completed",
        "initial-run-count": passed + failed_count,
        "passed": passed,
        "failed": failed_count,
        "exit-code": code,
    }


# Sessions and bundles.


def session_of(events: Iterable[object]) -> str:
    """The session of these events."""
    return "".join(json.dumps(value) + "\n" for value in (HEAD, *events))


def container_of(
    run: JsonObject,
    events: Iterable[object],
    outputs: Mapping[str, bytes],
    version: tuple[int, int] = (1, 1),
    store: tuple[int, int] = (3, 1),
) -> bytes:
    """The bundle of a run's members in the manifest, these events, and outputs by their files."""
    versions = {"store-format-version": store[0], "store-format-minor-version": store[1]}
    manifest = {
        "format-version": {"major": version[0], "minor": version[1]},
        "run": {**run, **versions},
    }
    log = "".join(json.dumps(one) + "\n" for one in events).encode()
    stored = container((b"out/" + name.encode(), data) for name, data in outputs.items())
    return container(
        [
            (b"manifest.json", json.dumps(manifest).encode()),
            (b"run.log.zst", log),
            (b"store.zip", stored),
        ]
    )


def bundle(
    *events: object,
    outputs: Mapping[str, bytes] = {},
    ended: JsonObject | None = None,
    at: float = 0,
    run_id: str = ID,
    version: tuple[int, int] = (1, 1),
    store: tuple[int, int] = (3, 1),
    **more: object,
) -> bytes:
    """A bundle of these events as they are logged, with outputs by their files' names.

    Its run may have further members, which are named with `_` for `-`.
    """
    run: JsonObject = {
        "run-id": run_id,
        "nextest-version": "0.9.111",
        "started-at": instant(at),
        "last-written-at": instant(at),
        "status": ended or {"status": "incomplete"},
        "sizes": {"log": SIZES, "store": SIZES},
        **named(more),
    }
    return container_of(run, events, outputs, version, store)


def bundle_of(session: str) -> bytes:
    """The bundle of a session's text."""
    head, *events = [json.loads(line) for line in session.split("\n") if line.strip()]
    outputs: dict[str, bytes] = {}
    logged = [stored(event, outputs) for event in events]
    run = {key: head[key] for key in HEAD if key in head}
    return container_of({**run, "sizes": {"log": SIZES, "store": SIZES}}, logged, outputs)


def stored(value: object, store: dict[str, bytes]) -> object:
    """The value of an event with the names of outputs in place of their bytes.

    The bytes go into the store.
    """
    if isinstance(value, list):
        return [stored(item, store) for item in value]
    if not isinstance(value, dict):
        return value
    if "split" in value or "combined" in value:
        outputs = members_of(value.get("split", value)).values
        names = {
            stream: name_of(bytes.fromhex(text_of(digits)), stream, store)
            for stream, digits in outputs.items()
        }
        return {"split": names} if "split" in value else names
    return {key: stored(item, store) for key, item in value.items()}


def name_of(data: bytes, stream: str, store: dict[str, bytes]) -> object:
    """What a log has in the place of these bytes, which go into the store."""
    if not data:
        return "empty"
    name = file_name(data, stream)
    store[name] = data
    return {"full": name}


def file_name(data: bytes, stream: str) -> str:
    """The name of the file that an output has in the store."""
    return f"{hashlib.sha256(data).hexdigest()[:16]}-{stream}"
