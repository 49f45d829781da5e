"""The JSON of a session: its head, its events, and what they have in common."""

from __future__ import annotations

import json

from rezovamy_runs.json_values import JsonObject

COUNTS = [
    "initial-run-count",
    "finished-count",
    "setup-scripts-initial-count",
    "setup-scripts-finished-count",
    "setup-scripts-passed",
    "setup-scripts-failed",
    "setup-scripts-exec-failed",
    "setup-scripts-timed-out",
    "passed",
    "passed-slow",
    "passed-timed-out",
    "flaky",
    "failed",
    "failed-slow",
    "failed-timed-out",
    "leaky",
    "leaky-failed",
    "exec-failed",
    "skipped",
]
# What the heads of all sessions that are made have in common.
HEAD: JsonObject = {
    "cargo-metadata": "{}",
    "record-opts": {"run-mode": "test"},
    "build-scope": {"build-kind": "cargo", "scope": {}},
}


def text(value: object) -> str:
    """Return the compact text of a value, its keys in order."""
    return json.dumps(value, separators=(",", ":"), sort_keys=True)


def instant(seconds: int, nanoseconds: int = 0) -> dict[str, int]:
    """Return an instant of UTC."""
    return {"secs": seconds, "nanos": nanoseconds, "offset": 0}


def span(seconds: int, nanoseconds: int = 0) -> dict[str, int]:
    """Return a length of time."""
    return {"secs": seconds, "nanos": nanoseconds}


def stats(count: int) -> dict[str, int]:
    """Return the numbers of a run of so many tests, none of which has ended."""
    return {**dict.fromkeys(COUNTS, 0), "initial-run-count": count}


def event(kind: str, at: dict[str, int], **fields: object) -> JsonObject:
    """Return an event. Its members are named with `_` for `-`."""
    members = {name.replace("_", "-"): value for name, value in fields.items()}
    return {"timestamp": at, "elapsed": span(0), "kind": kind, **members}
