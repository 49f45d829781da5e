"""Made reports and events of which tests make JUnit XML, as docs/FORMATS.md describes them."""

from __future__ import annotations

import json
from typing import TypeAlias

Json: TypeAlias = dict[str, object]

RUN_ID = "550e8400-e29b-41d4-a716-446655440000"
ODD = (
    'a<b>&"c"\t\n\r\x00\x1b\ufffe\U0001f600]]>'
    "\x1b[1;31mred\x1b[0m\x1b]8;;file:///x\x07link\x1b]8;;\x1b\\\x1b(B\x9b2J\x1bPq\x1b\\."
)
CLEAN = 'a<b>&"c"\t\n\r\U0001f600]]>redlink.'


def made_attempt(kind: str, **more: object) -> Json:
    """Return an attempt beside the main one."""
    return {
        "kind": kind,
        "type-text": "test timeout",
        "timestamp": {"secs": 1, "nanos": 0, "offset": 0},
        "time": {"secs": 0, "nanos": 1_500_000},
        **more,
    }


def made_case(name: str, status: Json, **more: object) -> Json:
    """Return a case of the binary `bin`."""
    return {"name": name, "classname": "bin", "status": status, **more}


def made_failure(kind: str, rerun_kind: str, attempts: list[Json], **more: object) -> Json:
    """Return the status of a case that didn't pass."""
    main: Json = {
        "kind": kind,
        "type-text": "t",
        "rerun-kind": rerun_kind,
        "reruns": attempts,
    }
    return {"non-success": {**main, **more}}


def failed_case() -> Json:
    """Return a case that failed three times, and says so in texts that have to be cleaned."""
    attempts = [made_attempt("failure", description=ODD), made_attempt("error")]
    status = made_failure("failure", "rerun", attempts, message=ODD, description=ODD)
    start = {"secs": -1, "nanos": 999_999_999, "offset": 3600}
    outputs = {"system-out": ODD, "system-err": ""}
    return made_case("failed", status, timestamp=start, **outputs)


def made_report() -> Json:
    """Return a report with a case of each kind, and with texts that have to be cleaned."""
    outputs = {"system-out": ODD, "system-err": ODD}
    flaky = [made_attempt("failure"), made_attempt("error", message=ODD)]
    counted = [made_attempt("failure", description=ODD, **outputs)]
    cases = [
        made_case("passed", {"success": []}, time={"secs": 1, "nanos": 999_600_000}),
        made_case("flaky", {"success": flaky}),
        failed_case(),
        made_case("counted as failed", made_failure("error", "flaky", counted)),
        made_case(
            "skipped",
            {"skipped": "Skipped: test already passed"},
            time={"secs": 0, "nanos": 0},
        ),
    ]
    no_date = {"secs": 2**62, "nanos": 0, "offset": 0}
    script: Json = {
        "name": "@setup-script:db",
        "cases": [made_case(ODD, {"success": []}, timestamp=no_date)],
        "properties": [
            {"name": "command", "value": ODD},
            {"name": "args", "value": ""},
        ],
    }
    return report_of_suites(script, {"name": "bin", "cases": cases, "properties": []})


def report_of_suites(*suites: Json) -> Json:
    """Return a report that has these suites."""
    return {
        "name": "nextest-run",
        "run-id": RUN_ID,
        "timestamp": {"secs": 1_600_000_000, "nanos": 123_456_789, "offset": -19_800},
        "time": {"secs": 11, "nanos": 0},
        "suites": list(suites),
    }


def report_of_cases(*cases: Json) -> Json:
    """Return a report that has these cases of the binary `bin`."""
    return report_of_suites({"name": "bin", "cases": list(cases), "properties": []})


def passed_report() -> Json:
    """Return a report whose only case passed."""
    return report_of_cases(made_case("passed", {"success": []}))


def event(second: int, kind: str, name: str | None = None, **more: object) -> Json:
    """Return an event, which may be of a test of the binary `bin`."""
    test: Json = {"test-instance": {"binary-id": "bin", "test-name": name}} if name else {}
    instant = {"secs": second, "nanos": 0, "offset": 0}
    return {"timestamp": instant, "kind": kind, **test, **more}


def made_events(*more: Json, tried: bool = True, unseen: Json | None = None) -> list[Json]:
    """Return a run in which a test passed, one is ignored, and one was tried without an end."""
    said = {"short-message": "it is flaky", "description": "it is flaky"}
    status = {"run-status": {"error-summary": said}}
    attempts = [
        event(3, "test-started", "tried"),
        event(4, "test-attempt-failed-will-retry", "tried", **status),
        event(5, "test-retry-started", "tried"),
    ]
    return [
        event(1, "run-started"),
        event(1, "test-started", "passed"),
        event(2, "test-finished", "passed"),
        event(2, "test-skipped", "skipped", message="is slow"),
        *(attempts if tried else []),
        *more,
        event(6, "run-finished", None, **{"run-id": RUN_ID}, **(unseen or {})),
    ]


def unfinished_events() -> list[Json]:
    """Return a run that was broken off, and had announced two tests that no event names."""
    named = [("bin", "tried"), ("other", "late")]
    missing = {
        "not-seen": [{"binary-id": binary, "test-name": name} for binary, name in named],
        "total-not-seen": 4,
    }
    cancelled = event(6, "run-begin-cancel", reason="interrupt")
    return made_events(cancelled, unseen={"outstanding-not-seen": missing})


def lines_of(events: list[Json]) -> bytes:
    """Return the lines of events."""
    return b"".join(json.dumps(event).encode() + b"\n" for event in events)


def session_of(events: list[Json]) -> bytes:
    """Return a session of events, after a head."""
    return b"{}\n" + lines_of(events)
