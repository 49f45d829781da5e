"""Whole traces, by their texts and by their outlines: in one line and over several, by binary and
by slot.
"""

from __future__ import annotations

from collections.abc import Sequence

from workshop.cases.case import SOME, Case, Wanted, of_length
from workshop.cases.histories import (
    Line,
    end,
    event,
    fail,
    go_on,
    pause,
    retry,
    run,
    run_end,
    skip,
    start,
    sub_run,
    sub_run_end,
    two_slots,
)
from workshop.cases.outlines import FIRST_TEST_NAMED, GROUPINGS, RUN_BEGUN, outlined, printed
from workshop.cases.texts import (
    EMPTY_TRACE,
    EMPTY_TRACE_IN_LINES,
    PAUSE_ALONE,
    RUN_PAUSED,
    RUN_STARTED,
    SMALL_SESSION,
    SMALL_TRACE,
    SMALL_TRACE_BY_SLOT,
    TEST_STARTED,
    replaced,
    session_of,
)

# Two binaries with two tests each, a retry and a pause.
TWO_SLOTS_DRAWN = (
    RUN_BEGUN
    + FIRST_TEST_NAMED
    + """\
B test:t1 2/10000 1000000000
C run:concurrency 0/0 1000000000 {"running_scripts":0,"running_tests":1}
M :thread_name 2/10001 0 {"name":"slot-1"}
M :thread_sort_index 2/10001 0 {"sort_index":10001}
B test:t2 2/10001 1001000000
C run:concurrency 0/0 1001000000 {"running_scripts":0,"running_tests":2}
E test:t1 2/10000 1002000000
C run:concurrency 0/0 1002000000 {"running_scripts":0,"running_tests":1}
C run:test results 0/0 1002000000 {"failed":1,"flaky":0,"passed":0}
M :process_name 3/0 0 {"name":"beta::b"}
M :process_sort_index 3/0 0 {"sort_index":3}
M :thread_name 3/10000 0 {"name":"slot-0"}
M :thread_sort_index 3/10000 0 {"sort_index":10000}
B test:t3 3/10000 1002000000
C run:concurrency 0/0 1002000000 {"running_scripts":0,"running_tests":2}
C run:concurrency 0/0 1003000000 {"running_scripts":0,"running_tests":2}
E run:test run 0/1 1003000000
E test:t3 3/10000 1003000000
E test:t2 2/10001 1003000000
i run:paused 0/1 1003000000 {"running":2,"setup_scripts_running":0}
C run:concurrency 0/0 1006000000 {"running_scripts":0,"running_tests":2}
i run:continued 0/1 1006000000 {"running":2,"setup_scripts_running":0}
B run:test run 0/1 1006000000
B test:t3 3/10000 1006000000
B test:t2 2/10001 1006000000
E test:t2 2/10001 1007000000
s test:retry 2/10001 1007000000 0
C run:concurrency 0/0 1007000000 {"running_scripts":0,"running_tests":1}
B test:t2 2/10001 1008000000
f test:retry 2/10001 1008000000 0
C run:concurrency 0/0 1008000000 {"running_scripts":0,"running_tests":2}
E test:t3 3/10000 1009000000
C run:concurrency 0/0 1009000000 {"running_scripts":0,"running_tests":1}
C run:test results 0/0 1009000000 {"failed":1,"flaky":0,"passed":0}
E test:t2 2/10001 1010000000
C run:concurrency 0/0 1010000000 {"running_scripts":0,"running_tests":0}
C run:test results 0/0 1010000000 {"failed":1,"flaky":0,"passed":0}
M :thread_name 3/10001 0 {"name":"slot-1"}
M :thread_sort_index 3/10001 0 {"sort_index":10001}
B test:t4 3/10001 1010000000
C run:concurrency 0/0 1010000000 {"running_scripts":0,"running_tests":1}
E test:t4 3/10001 1011000000
C run:concurrency 0/0 1011000000 {"running_scripts":0,"running_tests":0}
C run:test results 0/0 1011000000 {"failed":1,"flaky":0,"passed":0}
E run:test run 0/1 1011000000
"""
)

NO_TESTS = [run(1000), run_end(1001)]
NO_TESTS_DRAWN = (
    RUN_BEGUN
    + """\
E run:test run 0/1 1001000000
"""
)

# A failed attempt, a pause, a continuation and a retry at one instant: nothing is open in the
# pause.
RETRIED_AT_ONCE = [
    start(1000, 1, 0),
    fail(1001, 1),
    pause(1001, 0),
    go_on(1001, 0),
    retry(1001, 1, 0),
    end(1002, 1, 0),
]
RETRIED_AT_ONCE_DRAWN = """\
B test:t1 2/10000 1000000000
C run:concurrency 0/0 1000000000 {"running_scripts":0,"running_tests":1}
E test:t1 2/10000 1001000000
s test:retry 2/10000 1001000000 0
C run:concurrency 0/0 1001000000 {"running_scripts":0,"running_tests":0}
C run:concurrency 0/0 1001000000 {"running_scripts":0,"running_tests":0}
i run:paused 0/1 1001000000 {"running":0,"setup_scripts_running":0}
C run:concurrency 0/0 1001000000 {"running_scripts":0,"running_tests":0}
i run:continued 0/1 1001000000 {"running":0,"setup_scripts_running":0}
B test:t1 2/10000 1001000000
f test:retry 2/10000 1001000000 0
C run:concurrency 0/0 1001000000 {"running_scripts":0,"running_tests":1}
E test:t1 2/10000 1002000000
C run:concurrency 0/0 1002000000 {"running_scripts":0,"running_tests":0}
C run:test results 0/0 1002000000 {"failed":1,"flaky":0,"passed":0}
"""

# The same test in both runs of a stress run, whose rows are named once.
TWO_SUB_RUNS = [
    run(1000),
    sub_run(1001),
    start(1002, 1, 0),
    end(1003, 1, 0),
    sub_run_end(1004),
    sub_run(1005),
    start(1006, 1, 0),
    end(1007, 1, 0),
    sub_run_end(1008),
    run_end(1009),
]
TWO_SUB_RUNS_DRAWN = (
    RUN_BEGUN
    + """\
M :thread_name 0/2 0 {"name":"stress sub-runs"}
M :thread_sort_index 0/2 0 {"sort_index":2}
B stress:sub-run 0/2 1001000000
"""
    + FIRST_TEST_NAMED
    + """\
B test:t1 2/10000 1002000000
C run:concurrency 0/0 1002000000 {"running_scripts":0,"running_tests":1}
E test:t1 2/10000 1003000000
C run:concurrency 0/0 1003000000 {"running_scripts":0,"running_tests":0}
C run:test results 0/0 1003000000 {"failed":1,"flaky":0,"passed":0}
E stress:sub-run 0/2 1004000000
B stress:sub-run 0/2 1005000000
B test:t1 2/10000 1006000000
C run:concurrency 0/0 1006000000 {"running_scripts":0,"running_tests":1}
E test:t1 2/10000 1007000000
C run:concurrency 0/0 1007000000 {"running_scripts":0,"running_tests":0}
C run:test results 0/0 1007000000 {"failed":1,"flaky":0,"passed":0}
E stress:sub-run 0/2 1008000000
E run:test run 0/1 1009000000
"""
)

# A pause as the first event.
PAUSED = {"kind": "run-paused", "setup-scripts-running": 0, "running": 1}

ONE_PAUSE = """\
{"displayTimeUnit":"ms","otherData":{"nextest_version":"0.9.111"},"traceEvents":[
{"args":{"running_scripts":0,"running_tests":1},"cat":"run","name":"concurrency","ph":"C","pid":0,
    "tid":0,"ts":1002000000},
{"args":{"name":"nextest run"},"cat":"","name":"process_name","ph":"M","pid":0,"tid":0,"ts":0},
{"args":{"sort_index":0},"cat":"","name":"process_sort_index","ph":"M","pid":0,"tid":0,"ts":0},
{"args":{"name":"run"},"cat":"","name":"thread_name","ph":"M","pid":0,"tid":1,"ts":0},
{"args":{"sort_index":1},"cat":"","name":"thread_sort_index","ph":"M","pid":0,"tid":1,"ts":0},
{"args":{"running":1,"setup_scripts_running":0},"cat":"run","name":"paused","ph":"i","pid":0,
    "s":"p","tid":1,"ts":1002000000}
]}"""
ONE_TEST = [run(-1, 999999999), start(0, 1, 0), end(1002, 1, 0)]

ONE_TEST_BY_BINARY = """\
{"displayTimeUnit":"ms","otherData":{"nextest_version":"0.9.111","profile_name":"default",
    "run_id":"550e8400-e29b-41d4-a716-446655440000"},"traceEvents":[
{"args":{"name":"nextest run (default)"},"cat":"","name":"process_name","ph":"M","pid":0,"tid":0,
    "ts":0},
{"args":{"sort_index":0},"cat":"","name":"process_sort_index","ph":"M","pid":0,"tid":0,"ts":0},
{"args":{"name":"run"},"cat":"","name":"thread_name","ph":"M","pid":0,"tid":1,"ts":0},
{"args":{"sort_index":1},"cat":"","name":"thread_sort_index","ph":"M","pid":0,"tid":1,"ts":0},
{"args":{"cli_args":[],"nextest_version":"0.9.111","profile":"default",
    "run_id":"550e8400-e29b-41d4-a716-446655440000"},
    "cat":"run","name":"test run","ph":"B","pid":0,"tid":1,"ts":-1},
{"args":{"name":"alpha::a"},"cat":"","name":"process_name","ph":"M","pid":2,"tid":0,"ts":0},
{"args":{"sort_index":2},"cat":"","name":"process_sort_index","ph":"M","pid":2,"tid":0,"ts":0},
{"args":{"name":"slot-0"},"cat":"","name":"thread_name","ph":"M","pid":2,"tid":10000,"ts":0},
{"args":{"sort_index":10000},"cat":"","name":"thread_sort_index","ph":"M","pid":2,"tid":10000,
    "ts":0},
{"args":{"binary_id":"alpha::a","test_name":"t1"},"cat":"test","name":"t1","ph":"B","pid":2,
    "tid":10000,"ts":0},
{"args":{"running_scripts":0,"running_tests":1},"cat":"run","name":"concurrency","ph":"C","pid":0,
    "tid":0,"ts":0},
{"args":{"attempt":1,"binary_id":"alpha::a","is_slow":false,"result":"pass","test_group":"@global",
    "test_name":"t1",
    "time_taken":{"nanos":0,"secs":1},"total_attempts":1},"cat":"test","name":"t1","ph":"E",
    "pid":2,"tid":10000,"ts":1002000000},
{"args":{"running_scripts":0,"running_tests":0},"cat":"run","name":"concurrency","ph":"C","pid":0,
    "tid":0,"ts":1002000000},
{"args":{"failed":1,"flaky":0,"passed":0},"cat":"run","name":"test results","ph":"C","pid":0,
    "tid":0,"ts":1002000000}
]}"""

ONE_TEST_BY_SLOT = replaced(ONE_TEST_BY_BINARY, '{"name":"alpha::a"}', '{"name":"tests"}').replace(
    '"name":"t1"', '"name":"alpha::a t1"'
)

STARTED = {
    "kind": "run-started",
    "run-id": "550e8400-e29b-41d4-a716-446655440000",
    "profile-name": 'a "b"',
    "cli-args": [],
    "stress-condition": {"duration": {"secs": 1, "nanos": 0}},
}

# The start of a run, whose profile has quotes in its name, and the text of its trace.
ONE_RUN_IN_LINES = rb"""{
  "displayTimeUnit": "ms",
  "otherData": {
    "nextest_version": "0.9.111",
    "profile_name": "a \"b\"",
    "run_id": "550e8400-e29b-41d4-a716-446655440000",
    "stress_condition": {
      "duration": {
        "nanos": 0,
        "secs": 1
      }
    }
  },
  "traceEvents": [
    {
      "args": {
        "name": "nextest run (a \"b\")"
      },
      "cat": "",
      "name": "process_name",
      "ph": "M",
      "pid": 0,
      "tid": 0,
      "ts": 0
    },
    {
      "args": {
        "sort_index": 0
      },
      "cat": "",
      "name": "process_sort_index",
      "ph": "M",
      "pid": 0,
      "tid": 0,
      "ts": 0
    },
    {
      "args": {
        "name": "run"
      },
      "cat": "",
      "name": "thread_name",
      "ph": "M",
      "pid": 0,
      "tid": 1,
      "ts": 0
    },
    {
      "args": {
        "sort_index": 1
      },
      "cat": "",
      "name": "thread_sort_index",
      "ph": "M",
      "pid": 0,
      "tid": 1,
      "ts": 0
    },
    {
      "args": {
        "cli_args": [],
        "nextest_version": "0.9.111",
        "profile": "a \"b\"",
        "run_id": "550e8400-e29b-41d4-a716-446655440000",
        "stress_condition": {
          "duration": {
            "nanos": 0,
            "secs": 1
          }
        }
      },
      "cat": "run",
      "name": "test run",
      "ph": "B",
      "pid": 0,
      "tid": 1,
      "ts": -5000000
    }
  ]
}"""

# The trace of a test on the last slot that has a row.
LAST_ROW = (
    b'{"displayTimeUnit":"ms","otherData":{"nextest_version":"0.9.111"},'
    b'"traceEvents":[{"args":{"name":"alpha::a"},"cat":"","name":"process_name","ph":"M","pid":2,'
    b'"tid":0,"ts":0},{"args":{"sort_index":2},"cat":"","name":"process_sort_index","ph":"M",'
    b'"pid":2,"tid":0,"ts":0},{"args":{"name":"slot-18446744073709541615"},"cat":"",'
    b'"name":"thread_name","ph":"M","pid":2,"tid":18446744073709551615,"ts":0},'
    b'{"args":{"sort_index":18446744073709551615},"cat":"","name":"thread_sort_index","ph":"M",'
    b'"pid":2,"tid":18446744073709551615,"ts":0},{"args":{"binary_id":"alpha::a","test_name":"t1"},'
    b'"cat":"test","name":"t1","ph":"B","pid":2,"tid":18446744073709551615,"ts":1001000000},'
    b'{"args":{"running_scripts":0,"running_tests":1},"cat":"run","name":"concurrency","ph":"C",'
    b'"pid":0,"tid":0,"ts":1001000000}]}'
)

LAST_SLOT = replaced(TEST_STARTED, b'"global-slot":0', b'"global-slot":18446744073709541615')

# The options of a recording, what it records, and the trace.
DRAWN = [
    (("--message-format", "json"), session_of(), EMPTY_TRACE),
    (("--message-format", "json-pretty"), session_of(), EMPTY_TRACE_IN_LINES),
    ((), session_of(RUN_PAUSED), PAUSE_ALONE),
    ((), SMALL_SESSION, SMALL_TRACE),
    (("--group-by", "binary"), SMALL_SESSION, SMALL_TRACE),
    (("--group-by", "slot"), SMALL_SESSION, SMALL_TRACE_BY_SLOT),
    ((), session_of(LAST_SLOT), LAST_ROW),
]


def one_line(text: str) -> bytes:
    """A text over several lines as one, where a line may begin with four blanks."""
    return "".join(line.removeprefix("    ") for line in text.split("\n")).encode()


def over_lines(name: str, lines: Sequence[Line], out: Wanted) -> list[Case]:
    """The cases of events that have this trace under both groupings."""
    return [
        case
        for group_by in GROUPINGS
        for case in printed(name, lines, out, group_by, "json-pretty")
    ]


CASES = [
    *outlined("the first row", "MBECisf", two_slots(), TWO_SLOTS_DRAWN),
    *outlined("a run without tests", "MBECisf", NO_TESTS, NO_TESTS_DRAWN),
    *outlined(
        "a retry at the instant of its failure", "BECisf", RETRIED_AT_ONCE, RETRIED_AT_ONCE_DRAWN
    ),
    *outlined("two sub-runs", "MBECisf", TWO_SUB_RUNS, TWO_SUB_RUNS_DRAWN),
    *printed("no events", [], EMPTY_TRACE),
    *printed("no events", [], EMPTY_TRACE, "slot"),
    *printed("no events in 83 bytes", [], of_length(83)),
    *printed("a pause", [event(1002, PAUSED)], one_line(ONE_PAUSE)),
    *printed("a pause", [event(1002, PAUSED)], one_line(ONE_PAUSE), "slot"),
    *printed("one test", ONE_TEST, one_line(ONE_TEST_BY_BINARY)),
    *printed("one test", ONE_TEST, one_line(ONE_TEST_BY_SLOT), "slot"),
    *over_lines("no events, over lines", [], EMPTY_TRACE_IN_LINES),
    *over_lines("the end of no run", [run_end(1000)], EMPTY_TRACE_IN_LINES),
    *over_lines("a run over lines", [event(-5, STARTED), skip(1000, 1)], ONE_RUN_IN_LINES),
    *[
        Case(
            f"{len(trace)} bytes under {options}",
            ("record", "b", *options),
            session,
            0,
            trace,
            file=SOME,
        )
        for options, session, trace in DRAWN
    ],
    Case(
        "a pause after the start of the run",
        ("record", "b", "--read-limit", "65536"),
        session_of(RUN_STARTED, RUN_PAUSED),
        out=SOME,
        file=SOME,
    ),
]
