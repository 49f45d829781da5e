"""Streams of a test run in brief, and the sessions that are made of them, in brief too."""

from __future__ import annotations

import dataclasses
import json
from collections.abc import Iterable
from typing import Any

from rezovamy_runs.commands import session_from_libtest
from rezovamy_runs.commands.session_from_libtest import Options
from rezovamy_runs.json_values import JsonObject
from rezovamy_runs.streams.clock import Source
from rezovamy_runs.streams.run_state import CancelReason
from rezovamy_runs.streams.session_json import text
from rezovamy_runs.streams.targets import Targets

NEXTEST = {"crate": "a", "test_binary": "t", "kind": "test"}
UNIT = "=     Running unittests src/lib.rs (target/debug/deps/s-0123456789abcdef)"
INTEGRATION = "=\x1b[1m     Running\x1b[0m tests/s.rs (target/debug/deps/s-1123456789abcdef)"
OTHER = "=     Running tests/t.rs (target/debug/deps/t-2123456789abcdef)"
DOC = "=   Doc-tests s"
FAILED = "=\x1b[1m\x1b[91merror\x1b[0m: test failed, to rerun pass `--test s`"
CAUSE = (
    "=  process didn't exit successfully: `target/debug/deps/s-1123456789abcdef --report-time` (%s)"
)
CRASHED = f"{FAILED} > = > =Caused by: > {CAUSE % 'signal: 11, SIGSEGV: invalid memory reference'}"
INNER = "suite 2 > started b > ok b > started c > ok c > end"
NOT_BUILT = "=error: could not compile `s` (lib) due to 1 previous error"


# JSON that was read again, as any reader of a session finds it.
Json = dict[str, Any]


@dataclasses.dataclass(frozen=True)
class Converted:
    """The lines of the session that is made of a stream, and what is said meanwhile."""

    values: list[Json]
    said: list[str]

    @property
    def head(self) -> Json:
        """The head."""
        return self.values[0]

    def brief(self) -> str:
        """Return the events in brief, with slots, results, and how many tests ended."""
        counts = self.values[-1]["run-stats"]["single"]
        ended = f"{counts['finished-count']} of {counts['initial-run-count']}"
        flaky = ", flaky" * counts["flaky"]
        return " > ".join([*map(brief_event, self.values[2:-1]), f"{ended}{flaky}"])

    def finished(self) -> list[Json]:
        """Return the events of the ends of tests."""
        return [value for value in self.values if value.get("kind") == "test-finished"]


def options(*words: str) -> Options:
    """Return what words of the script ask for."""
    return session_from_libtest.read_words(words)[0]


def convert(
    lines: Iterable[bytes],
    *words: str,
    source: Source | None = None,
    cancel_reason: CancelReason | None = None,
) -> Converted:
    """Return what is made of lines that come at the instants of a source, or without a clock."""
    asked = options(*words, *([] if source else ["--no-clock"]))
    said: list[str] = []
    builder = session_from_libtest.builder_of(asked, Targets(), said.append, source)
    for line in lines:
        builder.read(line)
    values = session_from_libtest.finished(builder, asked, cancel_reason)
    return Converted([json.loads(json.dumps(value)) for value in values], said)


def brief_event(event: Json) -> str:
    """Return an event in brief."""
    more = [str(event["slot-assignment"]["global-slot"])] if "slot-assignment" in event else []
    if event["kind"] == "test-finished":
        more = [brief_result(status["result"]) for status in event["run-statuses"]["statuses"]]
    named = event.get("test-instance", {"test-name": event.get("reason")})
    return " ".join([event["kind"].removeprefix("test-"), named["test-name"], *more])


def brief_result(form: Any) -> str:
    """Return a result of an attempt in brief."""
    if not isinstance(form, dict) or "fail" not in form:
        return "passed" if form == "pass" else "failed-timed-out"
    failure = form["fail"]["failure"]
    if "abort" in failure:
        return f"abort-{failure['abort']['signal']}"
    return "failed" if failure["exit-code"] == 101 else f"exit-{failure['exit-code']}"


def last_status(finished: Json) -> Json:
    """Return the last attempt of a test that ended."""
    status: Json = finished["run-statuses"]["statuses"][-1]
    return status


def output_of(finished: Json) -> bytes:
    """Return what a test that ended printed."""
    return bytes.fromhex(last_status(finished)["output"]["output"]["output"]["combined"])


def errors_of(finished: Json) -> list[str]:
    """Return the errors of a test, which its summary holds too."""
    status = last_status(finished)
    errors: list[str] = status["output"]["output"]["errors"]
    summary = {"short-message": errors[0], "description": "\n".join(errors)}
    assert status["error-summary"] == summary
    return errors


def stream(words: str) -> list[bytes]:
    """Return the lines of a stream that is told in brief.

    After a mark of equality a line stands as it is, and one with a bar at its end is left open.
    """
    lines = []
    for part in words.split(" > "):
        end = b"" if part[-1:] == "|" else b"\n"
        line = part[1:].removesuffix("|") if part[:1] == "=" else text(event_line(part))
        lines.append(line.encode() + end)
    return b"".join(lines).splitlines(keepends=True)


def event_line(part: str) -> JsonObject:
    """Return the event of a line in brief."""
    what, name, *more = (part.split() + ["", ""])[:3]
    if what in ("suite", "end"):
        return suite_line(what, name) | ({"nextest": NEXTEST} if more[0] else {})
    taken: JsonObject = {"exec_time": float(more[0])} if more[0] else {}
    return {"type": "test", "event": what, "name": name, **taken}


def suite_line(what: str, number: str) -> JsonObject:
    """Return the start of a suite of so many tests, or its end after so many failures."""
    if what == "suite":
        return {"type": "suite", "event": "started", "test_count": int(number)}
    failed: JsonObject = {"failed": int(number)} if number.isdigit() else {}
    return {"type": "suite", "event": "ok", **failed}


def counted(passed: int, failed: int, ignored: int) -> str:
    """Return the end of a suite with its numbers."""
    value: JsonObject = {"type": "suite", "event": "ok", "measured": 0}
    return "=" + text(value | {"passed": passed, "failed": failed, "ignored": ignored})


def artifact(
    package: str, kind: str, name: str, file_name: str | None, is_test: bool = False
) -> str:
    """Return a line of cargo's that names what it built."""
    value = {
        "reason": "compiler-artifact",
        "package_id": package,
        "target": {"kind": [kind], "name": name},
        "profile": {"test": is_test},
    }
    return "=" + text(value | {"executable": file_name and f"/t/deps/{file_name}"})


# The lines of cargo that name targets.
NAMED = " > ".join(
    [
        artifact("path+file:///w/sums#0.1.0", "lib", "sums", None),
        artifact("path+file:///w/sums#0.1.0", "lib", "sums", "s-0123456789abcdef"),
        artifact("path+file:///w/x#other-sums@0.1.0", "test", "s", "s-1123456789abcdef"),
        artifact("other-sums 0.1.0 (path+file:///w/x)", "bin", "tool", "t-2123456789abcdef"),
        '={"reason":"build-finished","success":true}',
    ]
)
