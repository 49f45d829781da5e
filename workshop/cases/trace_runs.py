"""What runs, the runs of a stress run, setup scripts, pauses, continuations and cancels draw."""

from __future__ import annotations

from workshop.cases.events import sorted_stats
from workshop.cases.histories import (
    end,
    event,
    go_on,
    pause,
    run,
    run_end,
    script,
    script_end,
    script_slow,
    start,
    sub_run,
    sub_run_end,
)
from workshop.cases.made import Members
from workshop.cases.outlines import drawn, outlined

RUN_WITH_ALL = {
    "kind": "run-started",
    "run-id": "6ba7b810-9dad-11d1-80b4-00c04fd430c8",
    "profile-name": "ci",
    "cli-args": ["nextest", "run"],
    "stress-condition": {"count": 3},
}

RUN_WITH_ALL_DRAWN = """\
{"args":{"name":"nextest run (ci)"},"cat":"","name":"process_name","ph":"M","pid":0,"tid":0,"ts":0}
{"args":{"sort_index":0},"cat":"","name":"process_sort_index","ph":"M","pid":0,"tid":0,"ts":0}
{"args":{"name":"run"},"cat":"","name":"thread_name","ph":"M","pid":0,"tid":1,"ts":0}
{"args":{"sort_index":1},"cat":"","name":"thread_sort_index","ph":"M","pid":0,"tid":1,"ts":0}
{"args":{"cli_args":["nextest","run"],"nextest_version":"0.9.111","profile":"ci",
    "run_id":"6ba7b810-9dad-11d1-80b4-00c04fd430c8",
    "stress_condition":{"count":3}},"cat":"run","name":"test run","ph":"B","pid":0,"tid":1,
    "ts":1002000000}
"""

# A second run, of which nothing but its begin is drawn.
RUN_WITH_LEAST_DRAWN = """\
{"args":{"cli_args":[],"nextest_version":"0.9.111","profile":"default",
    "run_id":"550e8400-e29b-41d4-a716-446655440000"},
    "cat":"run","name":"test run","ph":"B","pid":0,"tid":1,"ts":1002000000}
"""

RUN_FOR_A_TIME = {
    "kind": "run-started",
    "run-id": "550e8400-e29b-41d4-a716-446655440000",
    "profile-name": "default",
    "cli-args": [""],
    "stress-condition": {"duration": {"secs": 60, "nanos": 7}},
}

# In a pause, in which the row of the run was named.
RUN_FOR_A_TIME_DRAWN = """\
{"args":{"cli_args":[""],"nextest_version":"0.9.111","profile":"default",
    "run_id":"550e8400-e29b-41d4-a716-446655440000",
    "stress_condition":{"duration":{"nanos":7,"secs":60}}},"cat":"run","name":"test run","ph":"B",
    "pid":0,"tid":1,"ts":1002000000}
{"cat":"run","name":"test run","ph":"E","pid":0,"tid":1,"ts":1002000000}
"""

RUN_END_WITH_ALL = {
    "kind": "run-finished",
    "run-id": "550e8400-e29b-41d4-a716-446655440000",
    "start-time": {"secs": 1000, "nanos": 0, "offset": 0},
    "run-elapsed": {"secs": 11, "nanos": 5},
    "run-stats": {
        "stress": {
            "completed": {"current": 2, "total": 3},
            "success-count": 2,
            "failed-count": 1,
            "last-final-stats": "no-tests-run",
        }
    },
    "outstanding-not-seen": {
        "not-seen": [{"binary-id": "alpha::a", "test-name": "t1"}],
        "total-not-seen": 7,
    },
}

RUN_END_WITH_ALL_DRAWN = """\
{"args":{"nextest_version":"0.9.111","outstanding_not_seen":{"total_not_seen":7},
    "profile":"default",
    "run_stats":{"stress":{"completed":{"current":2,"total":3},"failed-count":1,
    "last-final-stats":"no-tests-run",
    "success-count":2}},"time_taken":{"nanos":5,"secs":11}},"cat":"run","name":"test run","ph":"E",
    "pid":0,"tid":1,
    "ts":1002000000}
"""

# In a pause.
RUN_END_WITH_LEAST_DRAWN = """\
{"cat":"run","name":"test run","ph":"B","pid":0,"tid":1,"ts":1002000000}
{"args":{"nextest_version":"0.9.111","profile":"default","run_stats":{"single":{"exec-failed":1,
    "failed":0,"failed-slow":0,
    "failed-timed-out":0,"finished-count":0,"flaky":0,"initial-run-count":1,"leaky":0,
    "leaky-failed":0,"passed":0,"passed-slow":0,
    "passed-timed-out":0,"setup-scripts-exec-failed":0,"setup-scripts-failed":0,
    "setup-scripts-finished-count":0,
    "setup-scripts-initial-count":0,"setup-scripts-passed":0,"setup-scripts-timed-out":0,
    "skipped":0}},
    "time_taken":{"nanos":0,"secs":1}},"cat":"run","name":"test run","ph":"E","pid":0,"tid":1,
    "ts":1002000000}
"""
NO_RUN = [sub_run(1000), start(1001, 1, 0), pause(1001, 0)]

SUB_RUN_FOR_A_TIME = {
    "kind": "stress-sub-run-started",
    "progress": {
        "time": {
            "total": {"secs": 60, "nanos": 0},
            "elapsed": {"secs": 9, "nanos": 8},
            "completed": 4,
        }
    },
}

# The first event, so that its process has the name of no profile.
SUB_RUN_FOR_A_TIME_DRAWN = """\
{"args":{"name":"nextest run"},"cat":"","name":"process_name","ph":"M","pid":0,"tid":0,"ts":0}
{"args":{"sort_index":0},"cat":"","name":"process_sort_index","ph":"M","pid":0,"tid":0,"ts":0}
{"args":{"name":"stress sub-runs"},"cat":"","name":"thread_name","ph":"M","pid":0,"tid":2,"ts":0}
{"args":{"sort_index":2},"cat":"","name":"thread_sort_index","ph":"M","pid":0,"tid":2,"ts":0}
{"args":{"progress":{"time":{"completed":4,"elapsed":{"nanos":8,"secs":9},"total":{"nanos":0,
    "secs":60}}}},"cat":"stress",
    "name":"sub-run","ph":"B","pid":0,"tid":2,"ts":1002000000}
"""

# In a pause, in which its process was named.
SUB_RUN_WITH_LEAST_DRAWN = """\
{"args":{"name":"stress sub-runs"},"cat":"","name":"thread_name","ph":"M","pid":0,"tid":2,"ts":0}
{"args":{"sort_index":2},"cat":"","name":"thread_sort_index","ph":"M","pid":0,"tid":2,"ts":0}
{"args":{"progress":{"count":{"completed":0,"elapsed":{"nanos":0,"secs":1}}}},"cat":"stress",
    "name":"sub-run","ph":"B","pid":0,
    "tid":2,"ts":1002000000}
{"cat":"stress","name":"sub-run","ph":"E","pid":0,"tid":2,"ts":1002000000}
"""

SUB_RUN_STATS: Members = {
    **sorted_stats(
        exec_failed=3, failed=2, failed_timed_out=4, flaky=6, initial_run_count=7, passed=5
    ),
    "cancel-reason": "second-signal",
}
SUB_RUN_END_WITH_ALL = {
    "kind": "stress-sub-run-finished",
    "progress": {"count": {"total": 5, "elapsed": {"secs": 9, "nanos": 0}, "completed": 5}},
    "sub-elapsed": {"secs": 2, "nanos": 1},
    "sub-stats": SUB_RUN_STATS,
}

SUB_RUN_END_WITH_ALL_DRAWN = """\
{"args":{"progress":{"count":{"completed":5,"elapsed":{"nanos":0,"secs":9},"total":5}},
    "sub_stats":{"cancel-reason":"second-signal","exec-failed":3,"failed":2,"failed-slow":0,
    "failed-timed-out":4,
    "finished-count":0,"flaky":6,"initial-run-count":7,"leaky":0,"leaky-failed":0,"passed":5,
    "passed-slow":0,"passed-timed-out":0,
    "setup-scripts-exec-failed":0,"setup-scripts-failed":0,"setup-scripts-finished-count":0,
    "setup-scripts-initial-count":0,
    "setup-scripts-passed":0,"setup-scripts-timed-out":0,"skipped":0},"time_taken":{"nanos":1,
    "secs":2}},"cat":"stress",
    "name":"sub-run","ph":"E","pid":0,"tid":2,"ts":1002000000}
"""

# In a pause.
SUB_RUN_END_WITH_LEAST_DRAWN = """\
{"cat":"stress","name":"sub-run","ph":"B","pid":0,"tid":2,"ts":1002000000}
{"args":{"progress":{"count":{"completed":1,"elapsed":{"nanos":0,"secs":1}}},
    "sub_stats":{"exec-failed":1,"failed":0,"failed-slow":0,"failed-timed-out":0,
    "finished-count":0,"flaky":0,
    "initial-run-count":1,"leaky":0,"leaky-failed":0,"passed":0,"passed-slow":0,
    "passed-timed-out":0,
    "setup-scripts-exec-failed":0,"setup-scripts-failed":0,"setup-scripts-finished-count":0,
    "setup-scripts-initial-count":0,
    "setup-scripts-passed":0,"setup-scripts-timed-out":0,"skipped":0},"time_taken":{"nanos":0,
    "secs":1}},"cat":"stress",
    "name":"sub-run","ph":"E","pid":0,"tid":2,"ts":1002000000}
"""

# Setup scripts.

SCRIPT_START_WITH_ALL = {
    "kind": "setup-script-started",
    "stress-index": {"current": 1, "total": 2},
    "index": 7,
    "total": 8,
    "script-id": "db-init",
    "program": "sh",
    "args": ["x"],
    "no-capture": True,
}

SCRIPT_START_WITH_ALL_DRAWN = """\
{"args":{"name":"setup-scripts"},"cat":"","name":"process_name","ph":"M","pid":1,"tid":0,"ts":0}
{"args":{"sort_index":1},"cat":"","name":"process_sort_index","ph":"M","pid":1,"tid":0,"ts":0}
{"args":{"name":"script-7"},"cat":"","name":"thread_name","ph":"M","pid":1,"tid":10007,"ts":0}
{"args":{"sort_index":10007},"cat":"","name":"thread_sort_index","ph":"M","pid":1,"tid":10007,
    "ts":0}
{"cat":"setup-script","name":"db-init","ph":"B","pid":1,"tid":10007,"ts":1002000000}
{"args":{"running_scripts":1,"running_tests":0},"cat":"run","name":"concurrency","ph":"C","pid":0,
    "tid":0,"ts":1002000000}
"""

# In a pause that said that three run, beside a test.
SCRIPT_START_WITH_LEAST_DRAWN = """\
{"args":{"name":"script-0"},"cat":"","name":"thread_name","ph":"M","pid":1,"tid":10000,"ts":0}
{"args":{"sort_index":10000},"cat":"","name":"thread_sort_index","ph":"M","pid":1,"tid":10000,
    "ts":0}
{"cat":"setup-script","name":"db1","ph":"B","pid":1,"tid":10000,"ts":1002000000}
{"cat":"setup-script","name":"db1","ph":"E","pid":1,"tid":10000,"ts":1002000000}
{"args":{"running_scripts":4,"running_tests":1},"cat":"run","name":"concurrency","ph":"C","pid":0,
    "tid":0,"ts":1002000000}
"""

SCRIPT_FINISH_WITH_ALL = {
    "kind": "setup-script-finished",
    "stress-index": {"current": 3},
    "index": 0,
    "total": 2,
    "script-id": "db1",
    "program": "sh",
    "args": ["x"],
    "no-capture": True,
    "run-status": {
        "output": {"output": {"result": "pass", "output": {"combined": ""}, "errors": []}},
        "result": {"fail": {"failure": {"exit-code": 101}, "leaked": False}},
        "start-time": {"secs": 1001, "nanos": 0, "offset": 0},
        "time-taken": {"secs": 2, "nanos": 5},
        "is-slow": True,
        "env-map": {"A": "1"},
        "error-summary": {"short-message": "exit code 101", "description": "no such database"},
    },
}

SCRIPT_FINISH_WITH_ALL_DRAWN = """\
{"args":{"error":{"description":"no such database","short_message":"exit code 101"},"is_slow":true,
    "result":{"fail":{"failure":{"exit-code":101},"leaked":false}},"script_id":"db1",
    "stress_index":{"current":3,"total":null},
    "time_taken":{"nanos":5,"secs":2}},"cat":"setup-script","name":"db1","ph":"E","pid":1,
    "tid":10000,"ts":1002000000}
{"args":{"running_scripts":1,"running_tests":0},"cat":"run","name":"concurrency","ph":"C","pid":0,
    "tid":0,"ts":1002000000}
"""

# In a pause that said that none run, beside a test.
SCRIPT_FINISH_WITH_LEAST_DRAWN = """\
{"cat":"setup-script","name":"db1","ph":"B","pid":1,"tid":10000,"ts":1002000000}
{"args":{"is_slow":false,"result":"exec-fail","script_id":"db1","time_taken":{"nanos":0,"secs":1}},
    "cat":"setup-script",
    "name":"db1","ph":"E","pid":1,"tid":10000,"ts":1002000000}
{"args":{"running_scripts":0,"running_tests":1},"cat":"run","name":"concurrency","ph":"C","pid":0,
    "tid":0,"ts":1002000000}
"""

SCRIPT_SLOW_WITH_ALL = {
    "kind": "setup-script-slow",
    "stress-index": {"current": 3, "total": 5},
    "script-id": "db1",
    "program": "sh",
    "args": ["x"],
    "slow-elapsed": {"secs": 60, "nanos": 7},
    "will-terminate": True,
}

SCRIPT_SLOW_WITH_ALL_DRAWN = """\
{"args":{"elapsed":{"nanos":7,"secs":60},"script_id":"db1","stress_index":{"current":3,"total":5},
    "will_terminate":true},
    "cat":"setup-script","name":"slow","ph":"i","pid":1,"s":"t","tid":10000,"ts":1002000000}
"""

# On the smallest open index of three with this id; smaller ones are of another id, and ended.
SCRIPT_SLOW_WITH_LEAST_DRAWN = """\
{"args":{"elapsed":{"nanos":0,"secs":1},"script_id":"db1","will_terminate":false},
    "cat":"setup-script","name":"slow","ph":"i",
    "pid":1,"s":"t","tid":10003,"ts":1002000000}
"""
THREE_OF_AN_ID = [
    script(1000, 9, 1),
    script(1000, 0, 2),
    script(1000, 2, 1),
    script(1000, 3, 1),
    script(1000, 4, 1),
    script_end(1001, 2, 1),
]

# Pauses, continuations and cancels.

RUN_NAMED = """\
{"args":{"name":"nextest run"},"cat":"","name":"process_name","ph":"M","pid":0,"tid":0,"ts":0}
{"args":{"sort_index":0},"cat":"","name":"process_sort_index","ph":"M","pid":0,"tid":0,"ts":0}
{"args":{"name":"run"},"cat":"","name":"thread_name","ph":"M","pid":0,"tid":1,"ts":0}
{"args":{"sort_index":1},"cat":"","name":"thread_sort_index","ph":"M","pid":0,"tid":1,"ts":0}
"""
CANCEL = """\
{"args":{"reason":"test-failure-immediate","running":3,"setup_scripts_running":2},"cat":"run",
    "name":"cancel","ph":"i","pid":0,
    "s":"p","tid":1,"ts":1002000000}
"""


def counter(scripts: int, tests: int) -> str:
    """The counter of what runs at second 1002."""
    return (
        f'{{"args":{{"running_scripts":{scripts},"running_tests":{tests}}},"cat":"run",'
        '"name":"concurrency","ph":"C","pid":0,"tid":0,"ts":1002000000}\n'
    )


def mark(name: str, scripts: int, tests: int) -> str:
    """The mark of a pause or a continuation at second 1002."""
    return (
        f'{{"args":{{"running":{tests},"setup_scripts_running":{scripts}}},"cat":"run",'
        f'"name":"{name}","ph":"i","pid":0,"s":"p","tid":1,"ts":1002000000}}\n'
    )


CANCELLED = {
    "kind": "run-begin-cancel",
    "setup-scripts-running": 2,
    "running": 3,
    "reason": "test-failure-immediate",
}

# The first event.
CANCELLED_DRAWN = counter(2, 3) + RUN_NAMED + CANCEL

# After a run and a pause.
CANCELLED_AGAIN_DRAWN = counter(2, 3) + CANCEL
PAUSED = {"kind": "run-paused", "setup-scripts-running": 0, "running": 1}

# A pause as the first event.
PAUSED_DRAWN = counter(0, 1) + RUN_NAMED + mark("paused", 0, 1)

# All that is open ends before the mark.
PAUSED_WHILE_OPEN_DRAWN = (
    counter(0, 1)
    + """\
{"cat":"run","name":"test run","ph":"E","pid":0,"tid":1,"ts":1002000000}
{"cat":"stress","name":"sub-run","ph":"E","pid":0,"tid":2,"ts":1002000000}
{"cat":"test","name":"t3","ph":"E","pid":3,"tid":10001,"ts":1002000000}
{"cat":"test","name":"t1","ph":"E","pid":2,"tid":10004,"ts":1002000000}
{"cat":"setup-script","name":"db2","ph":"E","pid":1,"tid":10000,"ts":1002000000}
"""
    + mark("paused", 0, 1)
)

# In a pause.
PAUSED_AGAIN_DRAWN = counter(0, 1) + mark("paused", 0, 1)
OPEN = [start(1000, 1, 4), script(1000, 0, 2), start(1000, 3, 1), sub_run(1000), run(1000)]
CONTINUED = {"kind": "run-continued", "setup-scripts-running": 7, "running": 6}

# Outside a pause, as the first event.
CONTINUED_DRAWN = counter(7, 6) + RUN_NAMED + mark("continued", 7, 6)

# All that is open begins after the mark.
CONTINUED_WHILE_OPEN_DRAWN = (
    counter(7, 6)
    + mark("continued", 7, 6)
    + """\
{"cat":"run","name":"test run","ph":"B","pid":0,"tid":1,"ts":1002000000}
{"cat":"stress","name":"sub-run","ph":"B","pid":0,"tid":2,"ts":1002000000}
{"cat":"test","name":"t3","ph":"B","pid":3,"tid":10001,"ts":1002000000}
{"cat":"test","name":"t1","ph":"B","pid":2,"tid":10004,"ts":1002000000}
{"cat":"setup-script","name":"db2","ph":"B","pid":1,"tid":10000,"ts":1002000000}
"""
)
OPEN_IN_A_PAUSE = [
    start(1000, 1, 4),
    pause(1001, 0),
    script(1001, 0, 2),
    start(1001, 3, 1),
    sub_run(1001),
    run(1001),
]

# Repeated pauses and continuations.
REPEATED = [
    start(1000, 1, 0),
    pause(1001, 0),
    pause(1002, 0),
    go_on(1003, 0),
    go_on(1004, 0),
    end(1005, 1, 0),
]

REPEATED_DRAWN = """\
B test:t1 2/10000 1000000000
C run:concurrency 0/0 1000000000 {"running_scripts":0,"running_tests":1}
C run:concurrency 0/0 1001000000 {"running_scripts":0,"running_tests":1}
E test:t1 2/10000 1001000000
i run:paused 0/1 1001000000 {"running":1,"setup_scripts_running":0}
C run:concurrency 0/0 1002000000 {"running_scripts":0,"running_tests":1}
i run:paused 0/1 1002000000 {"running":1,"setup_scripts_running":0}
C run:concurrency 0/0 1003000000 {"running_scripts":0,"running_tests":1}
i run:continued 0/1 1003000000 {"running":1,"setup_scripts_running":0}
B test:t1 2/10000 1003000000
C run:concurrency 0/0 1004000000 {"running_scripts":0,"running_tests":1}
i run:continued 0/1 1004000000 {"running":1,"setup_scripts_running":0}
E test:t1 2/10000 1005000000
C run:concurrency 0/0 1005000000 {"running_scripts":0,"running_tests":0}
C run:test results 0/0 1005000000 {"failed":1,"flaky":0,"passed":0}
"""

CASES = [
    *drawn("a run with all", [], event(1002, RUN_WITH_ALL), RUN_WITH_ALL_DRAWN),
    *drawn("a run with least", [run(1000), run_end(1001)], run(1002), RUN_WITH_LEAST_DRAWN),
    *drawn("a run for a time", [pause(1000, 0)], event(1002, RUN_FOR_A_TIME), RUN_FOR_A_TIME_DRAWN),
    *drawn(
        "the end of a run with all",
        [run(1000)],
        event(1002, RUN_END_WITH_ALL),
        RUN_END_WITH_ALL_DRAWN,
    ),
    *drawn(
        "the end of a run with least",
        [run(1000), pause(1001, 0)],
        run_end(1002),
        RUN_END_WITH_LEAST_DRAWN,
    ),
    *drawn("the end of no run, first", [], event(1002, RUN_END_WITH_ALL), ""),
    *drawn("the end of no run in a pause", NO_RUN, event(1002, RUN_END_WITH_ALL), ""),
    *drawn(
        "the end of no run after one", [run(1000), run_end(1001)], event(1002, RUN_END_WITH_ALL), ""
    ),
    *drawn("a sub-run for a time", [], event(1002, SUB_RUN_FOR_A_TIME), SUB_RUN_FOR_A_TIME_DRAWN),
    *drawn(
        "a sub-run with least", [run(1000), pause(1001, 0)], sub_run(1002), SUB_RUN_WITH_LEAST_DRAWN
    ),
    *drawn(
        "the end of a sub-run with all",
        [sub_run(1000)],
        event(1002, SUB_RUN_END_WITH_ALL),
        SUB_RUN_END_WITH_ALL_DRAWN,
    ),
    *drawn(
        "the end of a sub-run with least",
        [sub_run(1000), pause(1001, 0)],
        sub_run_end(1002),
        SUB_RUN_END_WITH_LEAST_DRAWN,
    ),
    *drawn(
        "a setup script with all",
        [],
        event(1002, SCRIPT_START_WITH_ALL),
        SCRIPT_START_WITH_ALL_DRAWN,
    ),
    *drawn(
        "a setup script with least",
        [script(1000, 1, 2), start(1000, 1, 0), pause(1001, 3)],
        script(1002, 0, 1),
        SCRIPT_START_WITH_LEAST_DRAWN,
    ),
    *drawn(
        "the end of a setup script with all",
        [script(1000, 0, 1), script(1000, 1, 2)],
        event(1002, SCRIPT_FINISH_WITH_ALL),
        SCRIPT_FINISH_WITH_ALL_DRAWN,
    ),
    *drawn(
        "the end of a setup script with least",
        [script(1000, 0, 1), start(1000, 1, 0), pause(1001, 0)],
        script_end(1002, 0, 1),
        SCRIPT_FINISH_WITH_LEAST_DRAWN,
    ),
    *drawn(
        "a slow setup script with all",
        [script(1000, 0, 1), pause(1001, 1)],
        event(1002, SCRIPT_SLOW_WITH_ALL),
        SCRIPT_SLOW_WITH_ALL_DRAWN,
    ),
    *drawn(
        "a slow setup script with least",
        THREE_OF_AN_ID,
        script_slow(1002, 1),
        SCRIPT_SLOW_WITH_LEAST_DRAWN,
    ),
    *drawn("a cancel, first", [], event(1002, CANCELLED), CANCELLED_DRAWN),
    *drawn(
        "a cancel in a pause",
        [run(1000), pause(1001, 0)],
        event(1002, CANCELLED),
        CANCELLED_AGAIN_DRAWN,
    ),
    *drawn("a pause, first", [], event(1002, PAUSED), PAUSED_DRAWN),
    *drawn("a pause of all", OPEN, event(1002, PAUSED), PAUSED_WHILE_OPEN_DRAWN),
    *drawn(
        "a pause in a pause", [run(1000), pause(1001, 0)], event(1002, PAUSED), PAUSED_AGAIN_DRAWN
    ),
    *drawn("a continuation, first", [], event(1002, CONTINUED), CONTINUED_DRAWN),
    *drawn(
        "a continuation of all", OPEN_IN_A_PAUSE, event(1002, CONTINUED), CONTINUED_WHILE_OPEN_DRAWN
    ),
    *outlined("repeated pauses", "BECi", REPEATED, REPEATED_DRAWN),
]
