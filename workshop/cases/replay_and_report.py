"""What `replay` and `report` print of a run, and of which events they print nothing."""

from __future__ import annotations

from collections.abc import Iterator
from typing import TypeAlias

from workshop.cases.case import SOME, Case, Recorded, Words, ends, has
from workshop.cases.events import (
    CANCEL,
    CONTINUATION,
    EXIT_CODE,
    NO_RUNS,
    PAUSE,
    RETRY_STARTED,
    RUN_FINISHED,
    SCRIPT_SLOW,
    SCRIPT_STARTED,
    START_ERROR,
    TEST_SLOW,
    attempt,
    attempt_failed,
    captured,
    run_started,
    script_finished,
    standard_output,
    stats,
    sub_run_finished,
    sub_run_started,
    test_finished,
    test_skipped,
    test_started,
)
from workshop.cases.made import (
    BENCHMARK,
    ONE_TEST,
    OPTIONS,
    Members,
    bundle,
    duration,
    line,
    log,
    run_bundle,
    store,
)
from workshop.cases.texts import (
    HEADER,
    RUN_PAUSED,
    finished,
    replaced,
    session_of,
)

# What is printed, or a status and a line.
Printed: TypeAlias = bytes | tuple[int, bytes]

# The words of the two commands: those of `replay` with outputs and without.
LOADED, SKIPPED, REPORTED = ("replay",), ("replay", "--output", "skip"), ("report",)
PRINTS = (LOADED, SKIPPED, REPORTED)

TWO_TESTS = b'{"suites":{"bin-0":["t0","t1"]}}'
OUTPUTS = (
    (b"out/0000000000000001-stdout", b"nine byte"),
    (b"out/0000000000000002-combined", b"hello"),
    (b"out/0000000000000003-stdout", b"x" * 10_000),
)


def stored(options: bytes | None = OPTIONS, tests: bytes | None = TWO_TESTS) -> bytes:
    return store(options, tests, OUTPUTS)


def asked(name: str, words: Words) -> str:
    return f"{name}: {' '.join(words)}"


def refused(name: str, bundle: bytes, status: int, line: bytes, *options: str) -> list[Case]:
    """A bundle of which none of the commands prints anything, for the same reason."""
    return [
        Case(asked(name, words), (*words, *options), bundle, status, err=line) for words in PRINTS
    ]


# A run of every kind of event.

SCRIPT_FINISHED: Members = {
    **script_finished("0000000000000002-combined", **{"env-map": {"X": "y"}}),
    "args": ["a b", "c"],
}
KINDS = (
    run_started(more={"stress-condition": {"count": 2}}),
    sub_run_started(0),
    SCRIPT_STARTED,
    SCRIPT_SLOW,
    # The script wrote to both streams at once, and set a variable.
    SCRIPT_FINISHED,
    test_started(),
    TEST_SLOW,
    # A first attempt that could not be started.
    attempt_failed(attempt(START_ERROR, "exec-fail")),
    RETRY_STARTED,
    # The test passed at its second attempt, and wrote to both streams.
    test_finished(
        attempt(START_ERROR, "exec-fail"),
        attempt(
            captured({"split": {"stdout": {"full": "0000000000000001-stdout"}, "stderr": "empty"}}),
            "pass",
            2,
            start=1001,
            taken=2,
        ),
        counts=stats(finished_count=1, passed=1, flaky=1),
    ),
    test_skipped("t1", "partition", "all"),
    CANCEL,
    PAUSE,
    CONTINUATION,
    sub_run_finished(
        {"time": {"total": duration(9), "elapsed": duration(0), "completed": 1}},
        duration(1),
        stats(finished_count=1, passed=1),
    ),
    RUN_FINISHED,
)
WITH_OUTPUTS = b"""\
header 550e8400-e29b-41d4-a716-446655440000 incomplete
1002.000000005 run-started
1002.000000005 stress-sub-run-started
1002.000000005 setup-script-started db
1002.000000005 setup-script-slow db
1002.000000005 setup-script-finished db combined=5
1002.000000005 test-started bin-0 t0
1002.000000005 test-slow bin-0 t0
1002.000000005 test-attempt-failed-will-retry bin-0 t0 start-error
1002.000000005 test-retry-started bin-0 t0
1002.000000005 test-finished bin-0 t0 stdout=9 stderr=0
1002.000000005 test-skipped bin-0 t1
1002.000000005 run-begin-cancel
1002.000000005 run-paused
1002.000000005 run-continued
1002.000000005 stress-sub-run-finished
1002.000000005 run-finished
"""

WITHOUT_OUTPUTS = replaced(
    replaced(WITH_OUTPUTS, b"combined=5", b"not-loaded"), b"stdout=9 stderr=0", b"not-loaded"
)

# A suite of a script, and one of a binary, whose cases are a test that passed at its second attempt
# and one that didn't run.
REPORT = (
    b'{"name":"nextest-run","run-id":"550e8400-e29b-41d4-a716-446655440000",'
    b'"suites":[{"cases":[{"classname":"@setup-script:db","name":"db","status":{"success":[]},'
    b'"time":{"nanos":0,"secs":1},"timestamp":{"nanos":0,"offset":0,"secs":1000}}],'
    b'"name":"@setup-script:db","properties":[{"name":"command","value":"./db.sh"},{"name":"args",'
    b'"value":"\'a b\' c"},{"name":"output-env:X","value":"y"}]},{"cases":[{"classname":"bin-0",'
    b'"name":"t0","status":{"success":[{"description":"no such file","kind":"error","message":"no '
    b'such file","system-err":"(process failed to start)","system-out":"(process failed to start)",'
    b'"time":{"nanos":0,"secs":1},"timestamp":{"nanos":0,"offset":0,"secs":1000},'
    b'"type-text":"execution failure"}]},"system-err":"","system-out":"nine byte",'
    b'"time":{"nanos":0,"secs":2},"timestamp":{"nanos":0,"offset":0,"secs":1001}},'
    b'{"classname":"bin-0","name":"t1","status":{"skipped":"Skipped: test is in a different '
    b'partition"},"time":{"nanos":0,"secs":0}}],"name":"bin-0","properties":[]}],"time":{"nanos":0,'
    b'"secs":9},"timestamp":{"nanos":0,"offset":0,"secs":7}}\n'
)

EACH_KIND = run_bundle(log(KINDS), stored())


UNREADABLE = b"\xFF"

# Logs of two lines, of which one can't be read, or is of an event that isn't printed. An entry may
# have 9000 bytes.

LIMIT_9000 = ("--read-limit", "9000")


def ended(output: Members, result: object) -> Members:
    """An attempt that began at second 1000 and took one second."""
    return {"output": output, "result": result, **attempt(output, result)}


def passed(name: str) -> bytes:
    """The end of the test `t0`, which passed and wrote the output of this name."""
    return line(test_finished(ended(standard_output(name), "pass")))


PAUSED = line(PAUSE)
UNKNOWN_TEST = line(test_skipped("t9", "ignored", "ignored"))
NO_RUNS_LINE = line(NO_RUNS)
MISSING_OUTPUT = passed("0000000000000009-stdout")
LONG_OUTPUT = passed("0000000000000003-stdout")
FAILED_AFTER_SUCCESS = line(
    test_finished(
        ended(standard_output("0000000000000001-stdout"), "pass"),
        ended(standard_output("0000000000000001-stdout"), EXIT_CODE),
    )
)
BLANK = b""


def of_lines(first: bytes, second: bytes) -> bytes:
    return run_bundle(first + b"\n" + second + b"\n", stored())


NOT_FOUND = 13, b"TestNotFound binary_id=bin-0 test_name=t9\n"
NO_COUNT = 13, b"InvalidStressCount\n"
UNREADABLE_1 = 5, b"ReadRunLog line_number=1\n"
UNREADABLE_2 = 5, b"ReadRunLog line_number=2\n"
NO_EVENT_1 = 5, b"ParseEvent line_number=1\n"
NO_EVENT_2 = 5, b"ParseEvent line_number=2\n"
MISSING = 13, b"RecordRead FileNotFound file_name=out/0000000000000009-stdout\n"
TOO_LONG = (
    13,
    b"RecordRead FileTooLarge file_name=out/0000000000000003-stdout size=10000 limit=9000\n",
)
SUCCESS = 13, b"SuccessAsFailure\n"

REFUSED_LINES = (
    ("an unknown test before bytes", UNKNOWN_TEST, UNREADABLE, NOT_FOUND),
    ("an unknown test after a pause", PAUSED, UNKNOWN_TEST, NOT_FOUND),
    ("no runs before an unknown test", NO_RUNS_LINE, UNKNOWN_TEST, NO_COUNT),
    ("bytes before no runs", UNREADABLE, NO_RUNS_LINE, UNREADABLE_1),
    ("bytes after a blank line", BLANK, UNREADABLE, UNREADABLE_2),
    ("no event before bytes", b"{}", UNREADABLE, NO_EVENT_1),
    ("no event after a pause", PAUSED, b"{}", NO_EVENT_2),
    ("no event before a missing output", b"{}", MISSING_OUTPUT, NO_EVENT_1),
    ("an unknown test before a success that fails", UNKNOWN_TEST, FAILED_AFTER_SUCCESS, NOT_FOUND),
)
NOT_LOADED = HEADER + b"1002.000000005 test-finished bin-0 t0 not-loaded\n"
NOT_LOADED_TWICE = NOT_LOADED + b"1002.000000005 test-finished bin-0 t0 not-loaded\n"
NINE_BYTES = HEADER + b"1002.000000005 test-finished bin-0 t0 stdout=9 stderr=-\n"

# What is replayed with outputs and without, and reported: a text, or a status and a line.
LINES: tuple[tuple[str, bytes, bytes, Printed, Printed, Printed], ...] = (
    ("a missing output", MISSING_OUTPUT, BLANK, MISSING, NOT_LOADED, MISSING),
    ("a long output", LONG_OUTPUT, BLANK, TOO_LONG, NOT_LOADED, TOO_LONG),
    ("a missing output before bytes", MISSING_OUTPUT, UNREADABLE, MISSING, UNREADABLE_2, MISSING),
    (
        "a long output before a missing one",
        LONG_OUTPUT,
        MISSING_OUTPUT,
        TOO_LONG,
        NOT_LOADED_TWICE,
        TOO_LONG,
    ),
    ("a success before a failure", FAILED_AFTER_SUCCESS, BLANK, NINE_BYTES, NOT_LOADED, SUCCESS),
    (
        "a success before a failure, and bytes",
        FAILED_AFTER_SUCCESS,
        UNREADABLE,
        UNREADABLE_2,
        UNREADABLE_2,
        SUCCESS,
    ),
)


def printed(name: str, first: bytes, second: bytes, *results: Printed) -> Iterator[Case]:
    """What each of the commands prints of a log of two lines."""
    for words, result in zip(PRINTS, results):
        status, out, err = (
            (0, result, b"") if isinstance(result, bytes) else (result[0], b"", result[1])
        )
        yield Case(
            asked(name, words), (*words, *LIMIT_9000), of_lines(first, second), status, out, err
        )


# Typed ends of a test.

# The end of a test that passed, which names an output.
PASSED = finished(b'{"split":{"stdout":{"full":"0000000000000001-stdout"}}}')


def bundle_of_test(line: bytes, *outputs: bytes) -> bytes:
    """Make a bundle of the end of a test, with the output that it names or without it."""
    named = [(b"out/0000000000000001-stdout", output) for output in outputs]
    return bundle(line, store(OPTIONS, ONE_TEST, named))


WITHOUT_OUTPUT = bundle_of_test(PASSED)
MISSING_1 = b"RecordRead FileNotFound file_name=out/0000000000000001-stdout\n"
WITH_OUTPUT = bundle_of_test(PASSED, b"hello")
LOADED_LINE = b"1002.000000000 test-finished alpha::a t1 stdout=5 stderr=-\n"
SKIPPED_LINE = b"1002.000000000 test-finished alpha::a t1 not-loaded\n"
OUTPUT_OF_3000 = bundle_of_test(PASSED, b"0123456789" * 300)
PAST_2999 = b"RecordRead FileTooLarge file_name=out/0000000000000001-stdout size=3000 limit=2999\n"

# The end of a test whose first attempt passed and whose second failed.
PASSED_THEN_FAILED = replaced(
    replaced(
        PASSED,
        b'"statuses":[',
        b'"statuses":[{"retry-data":{"attempt":1,"total-attempts":2},"output":{"start-error":"x"},'
        b'"result":"pass","start-time":{"secs":1001,"nanos":0,"offset":0},"time-taken":{"secs":1,'
        b'"nanos":0},"is-slow":false,"delay-before-start":{"secs":0,"nanos":0}},',
    ),
    b'"result":"pass","start-time":{"secs":1001,"nanos":0,"offset":0},"time-taken":{"secs":1,'
    b'"nanos":0},"is-slow":false,"delay-before-start":{"secs":0,"nanos":0}}],',
    b'"result":{"fail":{"failure":{"exit-code":1},"leaked":false}},"start-time":{"secs":1001,'
    b'"nanos":0,"offset":0},"time-taken":{"secs":1,"nanos":0},"is-slow":false,'
    b'"delay-before-start":{"secs":0,"nanos":0}}],',
)
SUCCESS_FIRST = bundle_of_test(PASSED_THEN_FAILED, b"hello")

# Runs and their reports.


def of_skipped(name: bytes) -> bytes:
    """The report of the run of a test that was skipped."""
    return (
        b'{"name":"nextest-run","run-id":"550e8400-e29b-41d4-a716-446655440000",'
        b'"suites":[{"cases":[{"classname":"bin-0","name":"'
        + name
        + (
            b'","status":{"skipped":"Skipped: test does not match the run-ignored option"},'
            b'"time":{"nanos":0,"secs":0}}],"name":"bin-0","properties":[]}],"time":{"nanos":0,'
            b'"secs":9},"timestamp":{"nanos":0,"offset":0,"secs":7}}\n'
        )
    )


T0_SKIPPED = test_skipped("t0", "ignored", "ignored")
T1_SKIPPED = test_skipped("t1", "ignored", "ignored")
TWO_RUNS = run_bundle(
    log([T0_SKIPPED, RUN_FINISHED, T1_SKIPPED, RUN_FINISHED, T0_SKIPPED]), stored()
)
NO_END = run_bundle(log([T0_SKIPPED]), stored())

# A test that was stopped for its time, and the end of its run.
STOPPED = log([test_finished(ended({"start-error": "none"}, {"timeout": "fail"})), RUN_FINISHED])

CASES = [
    Case("each kind, replayed with outputs", LOADED, EACH_KIND, out=WITH_OUTPUTS),
    Case("each kind, replayed without", SKIPPED, EACH_KIND, out=WITHOUT_OUTPUTS),
    Case("each kind, reported", REPORTED, EACH_KIND, out=REPORT),
    *[
        case
        for name, first, second, why in REFUSED_LINES
        for case in refused(name, of_lines(first, second), *why, *LIMIT_9000)
    ],
    *[case for row in LINES for case in printed(*row)],
    Case(
        "each run has a report of its own",
        REPORTED,
        TWO_RUNS,
        out=of_skipped(b"t0") + of_skipped(b"t1"),
    ),
    Case("a run without an end has no report", REPORTED, NO_END),
    Case(
        "a test that was stopped",
        REPORTED,
        run_bundle(STOPPED, stored()),
        out=has(b'"test timeout"'),
    ),
    Case(
        "a benchmark that was stopped",
        REPORTED,
        run_bundle(STOPPED, stored(BENCHMARK)),
        out=has(b'"benchmark timeout"'),
    ),
    Case(
        "a pause is replayed",
        ("replay",),
        Recorded(session_of(RUN_PAUSED)),
        out=HEADER + b"1002.000000000 run-paused\n",
    ),
    Case("replay without an output", ("replay",), WITHOUT_OUTPUT, 13, err=MISSING_1),
    Case("report without an output", ("report",), WITHOUT_OUTPUT, 13, err=MISSING_1),
    Case(
        "replay that skips a missing output",
        ("replay", "--output", "skip"),
        WITHOUT_OUTPUT,
        out=SOME,
    ),
    Case(
        "replay that loads an output",
        ("replay", "--output", "load"),
        WITH_OUTPUT,
        out=ends(LOADED_LINE),
    ),
    Case(
        "replay that skips an output",
        ("replay", "--output", "skip"),
        WITH_OUTPUT,
        out=ends(SKIPPED_LINE),
    ),
    Case(
        "an output past the read limit",
        ("replay", "--read-limit", "2999"),
        OUTPUT_OF_3000,
        13,
        err=PAST_2999,
    ),
    Case("an output at the read limit", ("report", "--read-limit", "3000"), OUTPUT_OF_3000),
    Case(
        "report of a success before a failure",
        ("report",),
        SUCCESS_FIRST,
        13,
        err=b"SuccessAsFailure\n",
    ),
    Case("replay of a success before a failure", ("replay",), SUCCESS_FIRST, out=SOME),
]
