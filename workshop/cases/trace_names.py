"""The names of processes and rows, each of which is given once, what a trace says of its run, and
the counters.
"""

from __future__ import annotations

from workshop.cases.case import Holds, begins
from workshop.cases.histories import (
    cancel,
    end,
    event,
    fail,
    go_on,
    pause,
    retry,
    run,
    run_end,
    script,
    script_end,
    skip,
    slow,
    start,
    sub_run,
    sub_run_end,
)
from workshop.cases.outlines import concurrency, failures, listed, outline, outlined, printed

CI_RUN = {
    "kind": "run-started",
    "run-id": "6ba7b810-9dad-11d1-80b4-00c04fd430c8",
    "profile-name": "ci",
    "cli-args": ["nextest", "run"],
    "stress-condition": {"count": None},
}

# The process of the run has the name of its first use.
TWO_RUNS = [
    run(1000),
    pause(1001, 0),
    go_on(1002, 0),
    run_end(1003),
    event(1004, CI_RUN),
    sub_run(1005),
    sub_run_end(1006),
    sub_run(1007),
]

TWO_RUNS_NAMED = """\
M :process_name 0/0 0 {"name":"nextest run (default)"}
M :process_sort_index 0/0 0 {"sort_index":0}
M :thread_name 0/1 0 {"name":"run"}
M :thread_sort_index 0/1 0 {"sort_index":1}
M :thread_name 0/2 0 {"name":"stress sub-runs"}
M :thread_sort_index 0/2 0 {"sort_index":2}
"""
A_SUB_RUN_FIRST = [sub_run(1000), event(1001, CI_RUN), cancel(1002, 0)]

A_SUB_RUN_FIRST_NAMED = """\
M :process_name 0/0 0 {"name":"nextest run"}
M :process_sort_index 0/0 0 {"sort_index":0}
M :thread_name 0/2 0 {"name":"stress sub-runs"}
M :thread_sort_index 0/2 0 {"sort_index":2}
M :thread_name 0/1 0 {"name":"run"}
M :thread_sort_index 0/1 0 {"sort_index":1}
"""

# Neither the end of a run that isn't open nor a counter asks for a name.
A_LATE_RUN = [run_end(1000), start(1001, 1, 0), event(1002, CI_RUN)]

A_LATE_RUN_NAMED = """\
M :process_name 2/0 0 {"name":"alpha::a"}
M :process_sort_index 2/0 0 {"sort_index":2}
M :thread_name 2/10000 0 {"name":"slot-0"}
M :thread_sort_index 2/10000 0 {"sort_index":10000}
M :process_name 0/0 0 {"name":"nextest run (ci)"}
M :process_sort_index 0/0 0 {"sort_index":0}
M :thread_name 0/1 0 {"name":"run"}
M :thread_sort_index 0/1 0 {"sort_index":1}
"""
SCRIPTS = [script(1000, 1, 2), script(1001, 0, 1), script_end(1002, 0, 1), script(1003, 0, 2)]

SCRIPTS_NAMED = """\
M :process_name 1/0 0 {"name":"setup-scripts"}
M :process_sort_index 1/0 0 {"sort_index":1}
M :thread_name 1/10001 0 {"name":"script-1"}
M :thread_sort_index 1/10001 0 {"sort_index":10001}
M :thread_name 1/10000 0 {"name":"script-0"}
M :thread_sort_index 1/10000 0 {"sort_index":10000}
"""

# Tests of two binaries on two slots, and one more slot of the first.
SOME_TESTS = [
    start(1000, 3, 0),
    start(1001, 1, 1),
    slow(1002, 1),
    end(1003, 3, 0),
    start(1004, 4, 0),
    fail(1005, 4),
    start(1006, 2, 0),
    fail(1007, 1),
    retry(1008, 4, 12),
]

NAMED_BY_BINARY = """\
M :process_name 2/0 0 {"name":"beta::b"}
M :process_sort_index 2/0 0 {"sort_index":2}
M :thread_name 2/10000 0 {"name":"slot-0"}
M :thread_sort_index 2/10000 0 {"sort_index":10000}
M :process_name 3/0 0 {"name":"alpha::a"}
M :process_sort_index 3/0 0 {"sort_index":3}
M :thread_name 3/10001 0 {"name":"slot-1"}
M :thread_sort_index 3/10001 0 {"sort_index":10001}
M :thread_name 3/10000 0 {"name":"slot-0"}
M :thread_sort_index 3/10000 0 {"sort_index":10000}
M :thread_name 2/10012 0 {"name":"slot-12"}
M :thread_sort_index 2/10012 0 {"sort_index":10012}
"""

NAMED_BY_SLOT = """\
M :process_name 2/0 0 {"name":"tests"}
M :process_sort_index 2/0 0 {"sort_index":2}
M :thread_name 2/10000 0 {"name":"slot-0"}
M :thread_sort_index 2/10000 0 {"sort_index":10000}
M :thread_name 2/10001 0 {"name":"slot-1"}
M :thread_sort_index 2/10001 0 {"sort_index":10001}
M :thread_name 2/10012 0 {"name":"slot-12"}
M :thread_sort_index 2/10012 0 {"sort_index":10012}
"""

# The most that a row is named after.
LAST_ROWS = [start(1000, 1, 18446744073709541615), script(1000, 18446744073709541615, 1)]

LAST_ROWS_NAMED = """\
M :process_name 2/0 0 {"name":"alpha::a"}
M :process_sort_index 2/0 0 {"sort_index":2}
M :thread_name 2/18446744073709551615 0 {"name":"slot-18446744073709541615"}
M :thread_sort_index 2/18446744073709551615 0 {"sort_index":18446744073709551615}
M :process_name 1/0 0 {"name":"setup-scripts"}
M :process_sort_index 1/0 0 {"sort_index":1}
M :thread_name 1/18446744073709551615 0 {"name":"script-18446744073709541615"}
M :thread_sort_index 1/18446744073709551615 0 {"sort_index":18446744073709551615}
"""
NO_RUN_SAID = b'{"nextest_version":"0.9.111"}'
A_RUN_SAID = (
    b'{"nextest_version":"0.9.111","profile_name":"default",'
    b'"run_id":"550e8400-e29b-41d4-a716-446655440000"}'
)

THE_LAST_RUN_SAID = (
    b'{"cli_args":["nextest","run"],"nextest_version":"0.9.111","profile_name":"ci",'
    b'"run_id":"6ba7b810-9dad-11d1-80b4-00c04fd430c8","stress_condition":{"count":null}}'
)

# Counters.

GREATEST = 18446744073709551615

NINE_RUN = {
    "kind": "run-begin-cancel",
    "setup-scripts-running": 5,
    "running": 9,
    "reason": "signal",
}
SEVEN_PAUSED = {"kind": "run-paused", "setup-scripts-running": 0, "running": 7}
SIX_CONTINUED = {"kind": "run-continued", "setup-scripts-running": 2, "running": 6}

TWO_RETRIED = {
    "kind": "test-retry-started",
    "test-instance": {"binary-id": "alpha::a", "test-name": "t1"},
    "slot-assignment": {"global-slot": 0, "test-group": "@global"},
    "retry-data": {"attempt": 2, "total-attempts": 3},
    "running": 2,
    "command-line": [],
}

MOST_FAILED = {
    "kind": "test-attempt-failed-will-retry",
    "test-instance": {"binary-id": "alpha::a", "test-name": "t1"},
    "run-status": {
        "retry-data": {"attempt": 1, "total-attempts": 3},
        "output": {"start-error": "none"},
        "result": "exec-fail",
        "start-time": {"secs": 1001, "nanos": 0, "offset": 0},
        "time-taken": {"secs": 1, "nanos": 0},
        "is-slow": False,
        "delay-before-start": {"secs": 0, "nanos": 0},
    },
    "delay-before-next-attempt": {"secs": 0, "nanos": 0},
    "failure-output": "never",
    "running": GREATEST,
}

# Setup scripts show how many tests run by the last event that says so, and none before.
RUNNING_TESTS = [
    script(1000, 0, 1),
    event(1001, NINE_RUN),
    script(1002, 1, 1),
    event(1003, SEVEN_PAUSED),
    script(1004, 2, 1),
    event(1005, SIX_CONTINUED),
    script_end(1006, 2, 1),
    event(1007, TWO_RETRIED),
    script(1008, 3, 1),
    event(1009, MOST_FAILED),
    script_end(1010, 3, 1),
    start(1011, 1, 0),
    run(1012),
    sub_run(1013),
    slow(1014, 1),
    skip(1015, 2),
    script(1016, 4, 1),
    end(1017, 1, 6),
    script_end(1018, 4, 1),
]

RUNNING_TESTS_DRAWN = (
    concurrency(1000, f"1/0 5/9 6/9 0/7 1/7 2/6 1/6 1/2 2/2 2/{GREATEST} 1/{GREATEST} 1/1")
    + concurrency(1016, "2/1 2/0")
    + failures(1017, 7)
    + concurrency(1018, "1/0")
)

# Setup scripts are counted, never below none, and a pause, a continuation or a cancel says anew how
# many run.
RUNNING_SCRIPTS = [
    script(1000, 0, 1),
    script(1001, 1, 1),
    pause(1002, 0),
    script_end(1003, 0, 1),
    start(1004, 1, 0),
    script_end(1005, 1, 1),
    script(1006, 1, 1),
    go_on(1007, 8),
    fail(1008, 1),
    retry(1009, 1, 0),
    cancel(1010, 3),
    end(1011, 1, 0),
]

RUNNING_SCRIPTS_DRAWN = concurrency(
    1000, "1/0 2/0 0/0 0/0 0/1 0/1 1/1 8/1 8/0 8/1 3/1 3/0"
) + failures(1011, 1)

# The most setup scripts that are counted.
MOST_SCRIPTS = [cancel(1000, 18446744073709551614), script(1001, 0, 1), script_end(1002, 0, 1)]

MOST_SCRIPTS_DRAWN = concurrency(
    1000, "18446744073709551614/0 18446744073709551615/0 18446744073709551614/0"
)


def says(other: bytes) -> Holds:
    """A trace that says this beside its events."""
    return begins(b'{"displayTimeUnit":"ms","otherData":' + other + b',"traceEvents":[')


def profiles(trace: bytes) -> list[object]:
    """The profiles of two runs, by the args of their begins and ends."""
    return [event.get("args", {}).get("profile") for event in (listed(trace) or [])[4:8]]


CASES = [
    *outlined("two runs", "M", TWO_RUNS, TWO_RUNS_NAMED),
    *outlined("a sub-run first", "M", A_SUB_RUN_FIRST, A_SUB_RUN_FIRST_NAMED),
    *outlined("a late run", "M", A_LATE_RUN, A_LATE_RUN_NAMED),
    *outlined("setup scripts", "M", SCRIPTS, SCRIPTS_NAMED),
    *printed("some tests", SOME_TESTS, outline("M", NAMED_BY_BINARY)),
    *printed("some tests", SOME_TESTS, outline("M", NAMED_BY_SLOT), "slot"),
    *outlined("the last rows", "M", LAST_ROWS, LAST_ROWS_NAMED),
    *printed("said of no event", [], says(NO_RUN_SAID)),
    *printed(
        "said of no run", [pause(1000, 0), start(1001, 1, 0), run_end(1002)], says(NO_RUN_SAID)
    ),
    *printed("said of a run", [run(1000)], says(A_RUN_SAID)),
    *printed(
        "said of the last run",
        [run(1000), run_end(1001), event(1002, CI_RUN), run_end(1003)],
        says(THE_LAST_RUN_SAID),
    ),
    *printed(
        "said of the last run with least",
        [event(1000, CI_RUN), run_end(1001), run(1002)],
        says(A_RUN_SAID),
    ),
    *printed(
        "a run ends under its profile",
        [run(1000), run_end(1001), event(1002, CI_RUN), run_end(1003)],
        Holds(
            "a trace of two profiles",
            lambda trace: profiles(trace) == ["default", "default", "ci", "ci"],
        ),
    ),
    *outlined("how many tests run", "C", RUNNING_TESTS, RUNNING_TESTS_DRAWN),
    *outlined("how many setup scripts run", "C", RUNNING_SCRIPTS, RUNNING_SCRIPTS_DRAWN),
    *outlined("the most setup scripts", "C", MOST_SCRIPTS, MOST_SCRIPTS_DRAWN),
]
