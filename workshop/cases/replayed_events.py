"""What `replay` prints of a run's head and of each event, and which events it refuses."""

from __future__ import annotations

from workshop.cases.case import Case, Words
from workshop.cases.events import (
    CANCEL,
    CONTINUATION,
    NO_RUNS,
    PAUSE,
    RETRY_STARTED,
    SCRIPT_SLOW,
    SCRIPT_STARTED,
    START_ERROR,
    STRESS_STATS,
    TEST_SLOW,
    attempt,
    attempt_failed,
    captured,
    run_finished,
    run_started,
    script_finished,
    stats,
    sub_run_finished,
    sub_run_started,
    test,
    test_finished,
    test_skipped,
    test_started,
)
from workshop.cases.made import (
    NO_TESTS,
    OPTIONS,
    Members,
    duration,
    instant,
    line,
    log,
    run_bundle,
    store,
)
from workshop.cases.texts import HEADER

# Its words with outputs and without.
LOADED, SKIPPED = ("replay",), ("replay", "--output", "skip")
TESTS = b'{"suites":{"bin-0":["t0"]}}'

OUTPUTS = (
    (b"out/0000000000000001-stdout", b"nine byte"),
    (b"out/0000000000000002-stderr", b"abc"),
    (b"out/0000000000000003-combined", b"hello"),
    (b"out/0000000000000004-stdout", b"x" * 10_000),
)


def of_events(*events: Members, tests: bytes = TESTS) -> bytes:
    """The bundle of these events, of which the test list is given."""
    return run_bundle(log(events), store(OPTIONS, tests, OUTPUTS))


def finished(first: Members, last: Members) -> Members:
    """The end of a test whose attempts have these outputs."""
    return test_finished(*[attempt(captured(output), "pass", total=1) for output in (first, last)])


# A test that isn't in the test list.
ONE_NOT_SEEN = {"outstanding-not-seen": {"not-seen": [test("y", "x")], "total-not-seen": 1}}

# Events without outputs, and their lines.
LINES = (
    (run_started(), b"1002.000000005 run-started\n"),
    (run_started(more={"stress-condition": {"count": None}}), b"1002.000000005 run-started\n"),
    (sub_run_started(1), b"1002.000000005 stress-sub-run-started\n"),
    (
        sub_run_finished(
            {"time": {"total": duration(9), "elapsed": duration(0), "completed": 1}},
            duration(1),
            stats(),
        ),
        b"1002.000000005 stress-sub-run-finished\n",
    ),
    (CANCEL, b"1002.000000005 run-begin-cancel\n"),
    (PAUSE, b"1002.000000005 run-paused\n"),
    (CONTINUATION, b"1002.000000005 run-continued\n"),
    (
        run_finished(STRESS_STATS, 1000, duration(2), **ONE_NOT_SEEN),
        b"1002.000000005 run-finished\n",
    ),
    (SCRIPT_STARTED, b"1002.000000005 setup-script-started db\n"),
    (SCRIPT_SLOW, b"1002.000000005 setup-script-slow db\n"),
    (test_started(), b"1002.000000005 test-started bin-0 t0\n"),
    (TEST_SLOW, b"1002.000000005 test-slow bin-0 t0\n"),
    (RETRY_STARTED, b"1002.000000005 test-retry-started bin-0 t0\n"),
    (test_skipped("t0", "ignored", "none"), b"1002.000000005 test-skipped bin-0 t0\n"),
    (
        script_finished("0000000000000003-combined"),
        b"1002.000000005 setup-script-finished db combined=5\n",
    ),
    (
        attempt_failed(attempt(START_ERROR, "pass", total=1)),
        b"1002.000000005 test-attempt-failed-will-retry bin-0 t0 start-error\n",
    ),
)

# A nanosecond before second 0.
EARLY_PAUSE = run_bundle(
    line({**PAUSE, "running": 0}, instant(-1, 999_999_999), elapsed=0), store(OPTIONS, TESTS)
)
EMPTY: Members = {"combined": "empty"}
NINE: Members = {"split": {"stdout": {"full": "0000000000000001-stdout"}}}
CUT: Members = {
    "split": {
        "stdout": "empty",
        "stderr": {"truncated": {"file-name": "0000000000000002-stderr", "original-size": 500}},
    }
}
LONG: Members = {"split": {"stdout": {"full": "0000000000000004-stdout"}}}
MISSING: Members = {"split": {"stdout": "empty", "stderr": {"full": "0000000000000009-stderr"}}}
BOTH_MISSING: Members = {
    "split": {
        "stdout": {"full": "0000000000000008-stdout"},
        "stderr": {"full": "0000000000000009-stderr"},
    }
}
NOT_LOADED = b"1002.000000005 test-finished bin-0 t0 not-loaded\n"

ENDS: tuple[tuple[str, Words, Members, Members, bytes], ...] = (
    (
        "an output",
        LOADED,
        EMPTY,
        NINE,
        b"1002.000000005 test-finished bin-0 t0 stdout=9 stderr=-\n",
    ),
    ("an output that is skipped", SKIPPED, EMPTY, NINE, NOT_LOADED),
    (
        "a cut output",
        LOADED,
        EMPTY,
        CUT,
        b"1002.000000005 test-finished bin-0 t0 stdout=0 stderr=3\n",
    ),
    ("a long output and a missing one that are skipped", SKIPPED, LONG, MISSING, NOT_LOADED),
)
NO_STDERR = b"RecordRead FileNotFound file_name=out/0000000000000009-stderr\n"
NO_STDOUT = b"RecordRead FileNotFound file_name=out/0000000000000008-stdout\n"
TOO_LONG = b"RecordRead FileTooLarge file_name=out/0000000000000004-stdout size=10000 limit=9000\n"

# Outputs of two attempts, of which the first that isn't read is answered.
UNREAD = (
    ("a missing output", NINE, MISSING, NO_STDERR),
    ("a missing output before others", MISSING, BOTH_MISSING, NO_STDERR),
    ("two missing outputs", BOTH_MISSING, LONG, NO_STDOUT),
    ("a long output before a missing one", LONG, MISSING, TOO_LONG),
)
TWO_TESTS = b'{"suites":{"b":["t"],"a":["u"]}}'
B_T = test_skipped("t", "ignored", "none", "b")
A_U = test_skipped("u", "ignored", "none", "a")
A_T = test_skipped("t", "ignored", "none", "a")


def refused(name: str, event: Members, line: bytes) -> list[Case]:
    """An event that is refused, whether outputs are loaded or not."""
    return [
        Case(f"{name}: {' '.join(words)}", words, of_events(event), 13, err=line)
        for words in (LOADED, SKIPPED)
    ]


COUNTS = {"initial-run-count": 1, "passed": 1, "failed": 0, "exit-code": 0}
STRESS_COUNTS = {"success-count": 1, "failed-count": 0, "exit-code": 0}

WORDS: tuple[tuple[Members, bytes], ...] = (
    ({"status": "incomplete"}, b"incomplete"),
    ({"status": "completed", **COUNTS}, b"completed"),
    ({"status": "cancelled", **COUNTS}, b"cancelled"),
    ({"status": "stress-completed", **STRESS_COUNTS}, b"stress-completed"),
    ({"status": "stress-cancelled", **STRESS_COUNTS}, b"stress-cancelled"),
    ({"status": "later"}, b"unknown"),
)


def header(status: Members, word: bytes) -> Case:
    """The line of a run that ended so."""
    return Case(
        f"the status {status['status']}",
        LOADED,
        run_bundle(b"", store(OPTIONS, TESTS), status),
        out=b"header 550e8400-e29b-41d4-a716-446655440000 " + word + b"\n",
    )


CASES = [
    *[
        Case(f"{number}: {event['kind']}", LOADED, of_events(event), out=HEADER + line)
        for number, (event, line) in enumerate(LINES, 1)
    ],
    Case("an early pause", LOADED, EARLY_PAUSE, out=HEADER + b"-1.999999999 run-paused\n"),
    *[
        Case(name, words, of_events(finished(first, last)), out=HEADER + line)
        for name, words, first, last, line in ENDS
    ],
    *[
        Case(
            name, (*LOADED, "--read-limit", "9000"), of_events(finished(first, last)), 13, err=line
        )
        for name, first, last, line in UNREAD
    ],
    *refused(
        "an unknown test", test_started(test("t1")), b"TestNotFound binary_id=bin-0 test_name=t1\n"
    ),
    *refused("no runs", NO_RUNS, b"InvalidStressCount\n"),
    Case(
        "tests of two binaries",
        LOADED,
        of_events(B_T, A_U, tests=TWO_TESTS),
        out=HEADER + b"1002.000000005 test-skipped b t\n1002.000000005 test-skipped a u\n",
    ),
    Case(
        "a test of another binary",
        LOADED,
        of_events(B_T, A_U, A_T, tests=TWO_TESTS),
        13,
        err=b"TestNotFound binary_id=a test_name=t\n",
    ),
    Case(
        "a test of no binary",
        LOADED,
        of_events(B_T, tests=NO_TESTS),
        13,
        err=b"TestNotFound binary_id=b test_name=t\n",
    ),
    *[header(status, word) for status, word in WORDS],
]
