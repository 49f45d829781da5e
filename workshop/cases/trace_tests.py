"""What tests draw: begins and ends of attempts, arrows from failed attempts to retries, and that a
test is slow or skipped.
"""

from __future__ import annotations

from workshop.cases.events import (
    NOT_STARTED,
    captured,
    course,
    sorted_stats,
    status,
    test_finished,
)
from workshop.cases.histories import (
    end,
    event,
    fail,
    numbered,
    pause,
    retry,
    script,
    skip,
    slow,
    start,
)
from workshop.cases.made import Members, duration, instant
from workshop.cases.outlines import drawn, outlined

NO_OUTPUT = captured({"split": {}})


def error_summary(short: str, long: str) -> Members:
    """What an attempt says of its error."""
    return {"error-summary": {"short-message": short, "description": long}}


START_WITH_ALL = {
    "kind": "test-started",
    "stress-index": {"current": 1, "total": 2},
    "test-instance": {"binary-id": "alpha::a", "test-name": "t1"},
    "slot-assignment": {"global-slot": 3, "group-slot": 1, "test-group": "heavy"},
    "current-stats": sorted_stats(initial_run_count=1),
    "running": 4,
    "command-line": ["a", "--exact", "t1"],
}

START_WITH_ALL_DRAWN = """\
{"args":{"name":"alpha::a"},"cat":"","name":"process_name","ph":"M","pid":2,"tid":0,"ts":0}
{"args":{"sort_index":2},"cat":"","name":"process_sort_index","ph":"M","pid":2,"tid":0,"ts":0}
{"args":{"name":"slot-3"},"cat":"","name":"thread_name","ph":"M","pid":2,"tid":10003,"ts":0}
{"args":{"sort_index":10003},"cat":"","name":"thread_sort_index","ph":"M","pid":2,"tid":10003,
    "ts":0}
{"args":{"binary_id":"alpha::a","command_line":["a","--exact","t1"],"test_name":"t1"},"cat":"test",
    "name":"t1","ph":"B","pid":2,
    "tid":10003,"ts":1002000000}
{"args":{"running_scripts":0,"running_tests":4},"cat":"run","name":"concurrency","ph":"C","pid":0,
    "tid":0,"ts":1002000000}
"""

START_WITH_ALL_DRAWN_BY_SLOT = """\
{"args":{"name":"tests"},"cat":"","name":"process_name","ph":"M","pid":2,"tid":0,"ts":0}
{"args":{"sort_index":2},"cat":"","name":"process_sort_index","ph":"M","pid":2,"tid":0,"ts":0}
{"args":{"name":"slot-3"},"cat":"","name":"thread_name","ph":"M","pid":2,"tid":10003,"ts":0}
{"args":{"sort_index":10003},"cat":"","name":"thread_sort_index","ph":"M","pid":2,"tid":10003,
    "ts":0}
{"args":{"binary_id":"alpha::a","command_line":["a","--exact","t1"],"test_name":"t1"},"cat":"test",
    "name":"alpha::a t1","ph":"B",
    "pid":2,"tid":10003,"ts":1002000000}
{"args":{"running_scripts":0,"running_tests":4},"cat":"run","name":"concurrency","ph":"C","pid":0,
    "tid":0,"ts":1002000000}
"""

# The second test of a second binary, in a pause: its process is the third, and the slot was named
# in the other.
START_WITH_LEAST_DRAWN = """\
{"args":{"name":"beta::b"},"cat":"","name":"process_name","ph":"M","pid":3,"tid":0,"ts":0}
{"args":{"sort_index":3},"cat":"","name":"process_sort_index","ph":"M","pid":3,"tid":0,"ts":0}
{"args":{"name":"slot-0"},"cat":"","name":"thread_name","ph":"M","pid":3,"tid":10000,"ts":0}
{"args":{"sort_index":10000},"cat":"","name":"thread_sort_index","ph":"M","pid":3,"tid":10000,
    "ts":0}
{"args":{"binary_id":"beta::b","test_name":"t4"},"cat":"test","name":"t4","ph":"B","pid":3,
    "tid":10000,"ts":1002000000}
{"cat":"test","name":"t4","ph":"E","pid":3,"tid":10000,"ts":1002000000}
{"args":{"running_scripts":0,"running_tests":1},"cat":"run","name":"concurrency","ph":"C","pid":0,
    "tid":0,"ts":1002000000}
"""

START_WITH_LEAST_DRAWN_BY_SLOT = """\
{"args":{"binary_id":"beta::b","test_name":"t4"},"cat":"test","name":"beta::b t4","ph":"B","pid":2,
    "tid":10000,"ts":1002000000}
{"cat":"test","name":"beta::b t4","ph":"E","pid":2,"tid":10000,"ts":1002000000}
{"args":{"running_scripts":0,"running_tests":1},"cat":"run","name":"concurrency","ph":"C","pid":0,
    "tid":0,"ts":1002000000}
"""
IN_A_PAUSE = [start(1000, 1, 0), fail(1001, 1), pause(1001, 0)]

RETRY_WITH_ALL = {
    "kind": "test-retry-started",
    "stress-index": {"current": 1, "total": 2},
    "test-instance": {"binary-id": "alpha::a", "test-name": "t1"},
    "slot-assignment": {"global-slot": 3, "group-slot": 1, "test-group": "heavy"},
    "retry-data": {"attempt": 2, "total-attempts": 4},
    "running": 9,
    "command-line": ["a", ""],
}

# The arrow of the first attempt, which was on slot 0, finishes on slot 3.
RETRY_WITH_ALL_DRAWN = """\
{"args":{"name":"slot-3"},"cat":"","name":"thread_name","ph":"M","pid":2,"tid":10003,"ts":0}
{"args":{"sort_index":10003},"cat":"","name":"thread_sort_index","ph":"M","pid":2,"tid":10003,
    "ts":0}
{"args":{"attempt":2,"binary_id":"alpha::a","command_line":["a",""],"test_name":"t1",
    "total_attempts":4},"cat":"test","name":"t1",
    "ph":"B","pid":2,"tid":10003,"ts":1002000000}
{"bp":"e","cat":"test","id":0,"name":"retry","ph":"f","pid":2,"tid":10003,"ts":1002000000}
{"args":{"running_scripts":0,"running_tests":9},"cat":"run","name":"concurrency","ph":"C","pid":0,
    "tid":0,"ts":1002000000}
"""

# In a pause, with an arrow.
RETRY_IN_PAUSE_DRAWN = """\
{"args":{"attempt":2,"binary_id":"alpha::a","test_name":"t1","total_attempts":3},"cat":"test",
    "name":"alpha::a t1","ph":"B",
    "pid":2,"tid":10000,"ts":1002000000}
{"bp":"e","cat":"test","id":0,"name":"retry","ph":"f","pid":2,"tid":10000,"ts":1002000000}
{"cat":"test","name":"alpha::a t1","ph":"E","pid":2,"tid":10000,"ts":1002000000}
{"args":{"running_scripts":0,"running_tests":1},"cat":"run","name":"concurrency","ph":"C","pid":0,
    "tid":0,"ts":1002000000}
"""

# The first event, without an arrow.
RETRY_WITH_LEAST_DRAWN = """\
{"args":{"name":"alpha::a"},"cat":"","name":"process_name","ph":"M","pid":2,"tid":0,"ts":0}
{"args":{"sort_index":2},"cat":"","name":"process_sort_index","ph":"M","pid":2,"tid":0,"ts":0}
{"args":{"name":"slot-0"},"cat":"","name":"thread_name","ph":"M","pid":2,"tid":10000,"ts":0}
{"args":{"sort_index":10000},"cat":"","name":"thread_sort_index","ph":"M","pid":2,"tid":10000,
    "ts":0}
{"args":{"attempt":2,"binary_id":"alpha::a","test_name":"t1","total_attempts":3},"cat":"test",
    "name":"t1","ph":"B","pid":2,
    "tid":10000,"ts":1002000000}
{"args":{"running_scripts":0,"running_tests":1},"cat":"run","name":"concurrency","ph":"C","pid":0,
    "tid":0,"ts":1002000000}
"""

SLOW_WITH_ALL = {
    "kind": "test-slow",
    "stress-index": {"current": 3},
    "test-instance": {"binary-id": "beta::b", "test-name": "t3"},
    "retry-data": {"attempt": 2, "total-attempts": 4},
    "slow-elapsed": {"secs": 60, "nanos": 7},
    "will-terminate": True,
}

SLOW_WITH_ALL_DRAWN = """\
{"args":{"attempt":2,"binary_id":"beta::b","elapsed":{"nanos":7,"secs":60},
    "stress_index":{"current":3,"total":null},
    "test_name":"t3","will_terminate":true},"cat":"test","name":"slow","ph":"i","pid":3,"s":"t",
    "tid":10005,"ts":1002000000}
"""

SLOW_WITH_LEAST_DRAWN = """\
{"args":{"attempt":1,"binary_id":"alpha::a","elapsed":{"nanos":0,"secs":1},"test_name":"t1",
    "will_terminate":false},"cat":"test",
    "name":"slow","ph":"i","pid":2,"s":"t","tid":10004,"ts":1002000000}
"""
TWO_IN_A_PAUSE = [start(1000, 1, 4), start(1001, 3, 5), pause(1001, 0)]

SKIPPED_WITH_ALL = {
    "kind": "test-skipped",
    "stress-index": {"current": 3, "total": 4},
    "test-instance": {"binary-id": "alpha::a", "test-name": "t1"},
    "reason": "default-filter",
    "junit-report-skipped": "all",
}

# A test starts in a group.
HEAVY_START = {
    "kind": "test-started",
    "test-instance": {"binary-id": "alpha::a", "test-name": "t1"},
    "slot-assignment": {"global-slot": 3, "test-group": "heavy"},
    "current-stats": sorted_stats(initial_run_count=1),
    "running": 1,
    "command-line": [],
}

FAIL_WITH_ALL = {
    "kind": "test-attempt-failed-will-retry",
    "stress-index": {"current": 3},
    "test-instance": {"binary-id": "alpha::a", "test-name": "t1"},
    "run-status": {
        "retry-data": {"attempt": 1, "total-attempts": 3},
        "output": {"output": {"result": "exec-fail", "output": {"split": {}}, "errors": ["no"]}},
        "result": {
            "fail": {"failure": {"abort": {"signal": 11, "name": "SIGSEGV"}}, "leaked": True}
        },
        "start-time": {"secs": 1001, "nanos": 0, "offset": 0},
        "time-taken": {"secs": 2, "nanos": 5},
        "is-slow": True,
        "delay-before-start": {"secs": 0, "nanos": 6},
        "error-summary": {"short-message": "exit code 101", "description": "thread panicked"},
        "output-error-slice": {"slice": "panicked", "start": 7},
    },
    "delay-before-next-attempt": {"secs": 4, "nanos": 0},
    "failure-output": "never",
    "running": 8,
}

FAIL_WITH_ALL_DRAWN = """\
{"args":{"attempt":1,"binary_id":"alpha::a","delay_before_next_attempt":{"nanos":0,"secs":4},
    "delay_before_start":{"nanos":6,"secs":0},"error":{"description":"thread panicked",
    "short_message":"exit code 101"},
    "is_slow":true,"result":{"fail":{"failure":{"abort":{"name":"SIGSEGV","signal":11}},
    "leaked":true}},
    "stress_index":{"current":3,"total":null},"test_group":"heavy","test_name":"t1",
    "time_taken":{"nanos":5,"secs":2},
    "total_attempts":3},"cat":"test","name":"t1","ph":"E","pid":2,"tid":10003,"ts":1002000000}
{"cat":"test","id":0,"name":"retry","ph":"s","pid":2,"tid":10003,"ts":1002000000}
{"args":{"running_scripts":1,"running_tests":8},"cat":"run","name":"concurrency","ph":"C","pid":0,
    "tid":0,"ts":1002000000}
"""

# In a pause, after another test failed.
FAIL_WITH_LEAST_DRAWN = """\
{"cat":"test","name":"beta::b t3","ph":"B","pid":2,"tid":10005,"ts":1002000000}
{"args":{"attempt":1,"binary_id":"beta::b","is_slow":false,"result":"exec-fail",
    "test_group":"@global","test_name":"t3",
    "time_taken":{"nanos":0,"secs":1},"total_attempts":3},"cat":"test","name":"beta::b t3",
    "ph":"E","pid":2,"tid":10005,
    "ts":1002000000}
{"cat":"test","id":1,"name":"retry","ph":"s","pid":2,"tid":10005,"ts":1002000000}
{"args":{"running_scripts":0,"running_tests":0},"cat":"run","name":"concurrency","ph":"C","pid":0,
    "tid":0,"ts":1002000000}
"""
FAILED_AND_PAUSED = [start(1000, 1, 0), fail(1000, 1), start(1000, 3, 5), pause(1001, 0)]

# The second attempt passed, and a flaky test is to fail.
FINISH_WITH_ALL = test_finished(
    {
        **status(1, 3, course(NOT_STARTED, "exec-fail", instant(1001), duration(9, 9))),
        **error_summary("first", "of the first"),
    },
    status(
        2, 3, course(NO_OUTPUT, {"leak": "pass"}, instant(1001), duration(2, 5), True), duration(1)
    ),
    of=numbered(1),
    counts=sorted_stats(
        exec_failed=3,
        failed=2,
        failed_slow=1,
        failed_timed_out=4,
        finished_count=90,
        flaky=6,
        initial_run_count=70,
        leaky=10,
        leaky_failed=20,
        passed=5,
        passed_slow=30,
        passed_timed_out=40,
        setup_scripts_failed=50,
        skipped=60,
    ),
    stores=(False, True),
    flaky=("failure", "fail"),
    index={"current": 3, "total": 5},
    shown="immediate",
    running=8,
)

FINISH_WITH_ALL_DRAWN = """\
{"args":{"attempt":2,"binary_id":"alpha::a","delay_before_start":{"nanos":0,"secs":1},
    "error":{"description":"test passed on attempt 2/3 but is configured to fail when flaky",
    "short_message":"flaky failure"},
    "flaky_result":"fail","is_slow":true,"result":{"leak":"pass"},"stress_index":{"current":3,
    "total":5},"test_group":"heavy",
    "test_name":"t1","time_taken":{"nanos":5,"secs":2},"total_attempts":3},"cat":"test",
    "name":"t1","ph":"E","pid":2,"tid":10003,
    "ts":1002000000}
{"args":{"running_scripts":0,"running_tests":8},"cat":"run","name":"concurrency","ph":"C","pid":0,
    "tid":0,"ts":1002000000}
{"args":{"failed":9,"flaky":6,"passed":5},"cat":"run","name":"test results","ph":"C","pid":0,
    "tid":0,"ts":1002000000}
"""

# The last of two attempts was too slow, so that a flaky result doesn't count.
FINISH_WITH_ERROR = test_finished(
    status(1, 2, course(NOT_STARTED, "pass", instant(1001), duration(9, 9))),
    {
        **status(2, 2, course(NO_OUTPUT, {"timeout": "fail"}, instant(1001), duration(2))),
        **error_summary("timed out", ""),
    },
    of=numbered(1),
    counts=sorted_stats(failed_timed_out=1),
    stores=(False, True),
    flaky=("failure", "fail"),
    shown="immediate",
)

FINISH_WITH_ERROR_DRAWN = """\
{"args":{"attempt":2,"binary_id":"alpha::a","error":{"description":"","short_message":"timed out"},
    "is_slow":false,
    "result":{"timeout":"fail"},"test_group":"@global","test_name":"t1","time_taken":{"nanos":0,
    "secs":2},"total_attempts":2},
    "cat":"test","name":"t1","ph":"E","pid":2,"tid":10000,"ts":1002000000}
{"args":{"running_scripts":0,"running_tests":0},"cat":"run","name":"concurrency","ph":"C","pid":0,
    "tid":0,"ts":1002000000}
{"args":{"failed":1,"flaky":0,"passed":0},"cat":"run","name":"test results","ph":"C","pid":0,
    "tid":0,"ts":1002000000}
"""

# In a pause, with four failed tests beside the one that could not be executed.
FINISH_WITH_LEAST_DRAWN = """\
{"cat":"test","name":"t1","ph":"B","pid":2,"tid":10000,"ts":1002000000}
{"args":{"attempt":1,"binary_id":"alpha::a","is_slow":false,"result":"pass","test_group":"@global",
    "test_name":"t1",
    "time_taken":{"nanos":0,"secs":1},"total_attempts":1},"cat":"test","name":"t1","ph":"E",
    "pid":2,"tid":10000,"ts":1002000000}
{"args":{"running_scripts":0,"running_tests":0},"cat":"run","name":"concurrency","ph":"C","pid":0,
    "tid":0,"ts":1002000000}
{"args":{"failed":5,"flaky":0,"passed":0},"cat":"run","name":"test results","ph":"C","pid":0,
    "tid":0,"ts":1002000000}
"""

# The same end, after a retry on slot 1 that is of no group.
GROUP_OF_THE_RETRY = """\
{"args":{"attempt":1,"binary_id":"alpha::a","is_slow":false,"result":"pass","test_group":"@global",
    "test_name":"t1",
    "time_taken":{"nanos":0,"secs":1},"total_attempts":1},"cat":"test","name":"t1","ph":"E",
    "pid":2,"tid":10001,"ts":1002000000}
{"args":{"running_scripts":0,"running_tests":0},"cat":"run","name":"concurrency","ph":"C","pid":0,
    "tid":0,"ts":1002000000}
{"args":{"failed":1,"flaky":0,"passed":0},"cat":"run","name":"test results","ph":"C","pid":0,
    "tid":0,"ts":1002000000}
"""

# A retry in the group.
HEAVY_RETRY = {
    "kind": "test-retry-started",
    "test-instance": {"binary-id": "alpha::a", "test-name": "t1"},
    "slot-assignment": {"global-slot": 3, "group-slot": 0, "test-group": "heavy"},
    "retry-data": {"attempt": 2, "total-attempts": 2},
    "running": 1,
    "command-line": [],
}

# The end of an attempt that is of the group.
GROUP_OF_THE_START = """\
{"args":{"attempt":1,"binary_id":"alpha::a","is_slow":false,"result":"pass","test_group":"heavy",
    "test_name":"t1",
    "time_taken":{"nanos":0,"secs":1},"total_attempts":1},"cat":"test","name":"t1","ph":"E",
    "pid":2,"tid":10003,"ts":1002000000}
{"args":{"running_scripts":0,"running_tests":0},"cat":"run","name":"concurrency","ph":"C","pid":0,
    "tid":0,"ts":1002000000}
{"args":{"failed":1,"flaky":0,"passed":0},"cat":"run","name":"test results","ph":"C","pid":0,
    "tid":0,"ts":1002000000}
"""
TO_NO_GROUP = [event(1000, HEAVY_START), fail(1001, 1), retry(1001, 1, 1)]
TO_THE_GROUP = [retry(1000, 1, 1), fail(1000, 1), event(1000, HEAVY_START), start(1001, 2, 0)]
TO_THE_GROUP_BY_A_RETRY = [
    start(1000, 1, 1),
    fail(1000, 1),
    event(1000, HEAVY_RETRY),
    start(1001, 2, 0),
]

# Arrows.

TWO_TESTS = [
    start(1000, 1, 0),
    fail(1001, 1),
    retry(1002, 1, 3),
    start(1003, 2, 0),
    fail(1004, 2),
    start(1005, 2, 0),
    fail(1006, 2),
]

TWO_TESTS_DRAWN = """\
s test:retry 2/10000 1001000000 0
f test:retry 2/10003 1002000000 0
s test:retry 2/10000 1004000000 1
s test:retry 2/10000 1006000000 2
"""

TWO_TESTS_DRAWN_ON = """\
s test:retry 2/10000 1001000000 0
f test:retry 2/10003 1002000000 0
s test:retry 2/10000 1004000000 1
s test:retry 2/10000 1006000000 2
f test:retry 2/10005 1007000000 2
s test:retry 2/10003 1008000000 3
"""
PENDING = [
    start(1000, 1, 0),
    fail(1001, 1),
    start(1002, 1, 1),
    end(1003, 1, 0),
    retry(1004, 3, 0),
    end(1005, 3, 0),
    retry(1006, 1, 2),
]

PENDING_DRAWN = """\
s test:retry 2/10000 1001000000 0
f test:retry 2/10002 1006000000 0
"""
FINISHED = [start(1000, 1, 0), fail(1001, 1), retry(1002, 1, 1), end(1003, 1, 0), retry(1004, 1, 2)]

FINISHED_DRAWN = """\
s test:retry 2/10000 1001000000 0
f test:retry 2/10001 1002000000 0
"""
OWN = [
    start(1000, 1, 0),
    start(1000, 3, 1),
    fail(1001, 3),
    fail(1002, 1),
    retry(1003, 3, 0),
    retry(1004, 1, 1),
]

OWN_DRAWN = """\
s test:retry 3/10001 1001000000 0
s test:retry 2/10000 1002000000 1
f test:retry 3/10000 1003000000 0
f test:retry 2/10001 1004000000 1
"""
ARROW_IN_A_PAUSE = [start(1000, 1, 0), pause(1001, 0), fail(1002, 1), retry(1003, 1, 1)]

ARROW_IN_A_PAUSE_DRAWN = """\
B test:t1 2/10000 1000000000
E test:t1 2/10000 1001000000
B test:t1 2/10000 1002000000
E test:t1 2/10000 1002000000
s test:retry 2/10000 1002000000 0
B test:t1 2/10001 1003000000
f test:retry 2/10001 1003000000 0
E test:t1 2/10001 1003000000
"""

CASES = [
    *drawn("a start with all", [], event(1002, START_WITH_ALL), START_WITH_ALL_DRAWN),
    *drawn(
        "a start with all", [], event(1002, START_WITH_ALL), START_WITH_ALL_DRAWN_BY_SLOT, "slot"
    ),
    *drawn("a start with least", IN_A_PAUSE, start(1002, 4, 0), START_WITH_LEAST_DRAWN),
    *drawn(
        "a start with least", IN_A_PAUSE, start(1002, 4, 0), START_WITH_LEAST_DRAWN_BY_SLOT, "slot"
    ),
    *drawn(
        "a retry with all",
        [start(1000, 1, 0), fail(1001, 1)],
        event(1002, RETRY_WITH_ALL),
        RETRY_WITH_ALL_DRAWN,
    ),
    *drawn("a retry with least", [], retry(1002, 1, 0), RETRY_WITH_LEAST_DRAWN),
    *drawn(
        "a retry in a pause",
        [start(1000, 1, 0), pause(1001, 0), fail(1001, 1)],
        retry(1002, 1, 0),
        RETRY_IN_PAUSE_DRAWN,
        "slot",
    ),
    *drawn("slow with all", TWO_IN_A_PAUSE, event(1002, SLOW_WITH_ALL), SLOW_WITH_ALL_DRAWN),
    *drawn("slow with least", TWO_IN_A_PAUSE, slow(1002, 1), SLOW_WITH_LEAST_DRAWN),
    *drawn("slow with least", TWO_IN_A_PAUSE, slow(1002, 1), SLOW_WITH_LEAST_DRAWN, "slot"),
    *drawn("skipped, first", [], event(1002, SKIPPED_WITH_ALL), ""),
    *drawn("skipped in a pause", [start(1000, 1, 0), pause(1001, 0)], skip(1002, 1), ""),
    *drawn(
        "a failure with all",
        [script(1000, 0, 1), event(1001, HEAVY_START)],
        event(1002, FAIL_WITH_ALL),
        FAIL_WITH_ALL_DRAWN,
    ),
    *drawn("a failure with least", FAILED_AND_PAUSED, fail(1002, 3), FAIL_WITH_LEAST_DRAWN, "slot"),
    *drawn(
        "an end with all",
        [event(1001, HEAVY_START)],
        event(1002, FINISH_WITH_ALL),
        FINISH_WITH_ALL_DRAWN,
    ),
    *drawn(
        "an end with an error",
        [start(1000, 1, 0)],
        event(1002, FINISH_WITH_ERROR),
        FINISH_WITH_ERROR_DRAWN,
    ),
    *drawn(
        "an end with least",
        [start(1000, 1, 0), pause(1001, 0)],
        end(1002, 1, 4),
        FINISH_WITH_LEAST_DRAWN,
    ),
    *drawn("a retry of no group", TO_NO_GROUP, end(1002, 1, 0), GROUP_OF_THE_RETRY),
    *drawn("a start in a group", TO_THE_GROUP, end(1002, 1, 0), GROUP_OF_THE_START),
    *drawn("a retry in a group", TO_THE_GROUP_BY_A_RETRY, end(1002, 1, 0), GROUP_OF_THE_START),
    *outlined("arrows: the third stays pending", "sf", TWO_TESTS, TWO_TESTS_DRAWN),
    *outlined(
        "arrows: and then that one finishes",
        "sf",
        [*TWO_TESTS, retry(1007, 2, 5), fail(1008, 1)],
        TWO_TESTS_DRAWN_ON,
    ),
    # It is pending through another start of its test, the end of that attempt, and those of other
    # tests.
    *outlined("arrows: pending", "sf", PENDING, PENDING_DRAWN),
    *outlined("arrows: pending until it finishes", "sf", FINISHED, FINISHED_DRAWN),
    *outlined("arrows: each test has its own, and another process", "sf", OWN, OWN_DRAWN),
    *outlined(
        "arrows: none without a failed attempt",
        "sf",
        [retry(1000, 1, 0), end(1001, 1, 0), start(1002, 1, 0)],
        "",
    ),
    # An arrow finishes between the begin and the end of a slice in a pause, and starts after the
    # end of one.
    *outlined("arrows: in a pause", "BEsf", ARROW_IN_A_PAUSE, ARROW_IN_A_PAUSE_DRAWN),
]
