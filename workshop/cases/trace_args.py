"""The trace events of each kind, by their texts, and the args of each that has some."""

from __future__ import annotations

from collections.abc import Sequence

from workshop.cases.case import Holds, has
from workshop.cases.events import (
    START_ERROR,
    attempt_failed,
    attempt_of,
    course,
    retry_started,
    run_finished,
    run_started,
    slot,
    slow_script,
    slow_test,
    sorted_stats,
    status,
    sub_run_finished,
    sub_run_started,
    test_finished,
    test_started,
)
from workshop.cases.histories import (
    Line,
    event,
    fail,
    numbered,
    pause,
    retry,
    run,
    script,
    start,
    sub_run,
    test_members,
)
from workshop.cases.made import Members, duration, instant
from workshop.cases.outlines import outlined, printed, refused, unwrapped

HEAVY = {"global-slot": 0, "test-group": "heavy"}
BUSY = {"cpu-time": duration(1)}
ERROR = {"error-summary": {"short-message": "exit code 101", "description": "thread panicked"}}

# How an attempt ended: `p` passed, `c` failed with exit code 101, `x` could not be started.
ENDINGS = {
    "p": "pass",
    "c": {"fail": {"failure": {"exit-code": 101}, "leaked": False}},
    "x": "exec-fail",
}


def went(ending: str, is_slow: bool) -> Members:
    """How an attempt or a setup script went."""
    return course(START_ERROR, ENDINGS[ending], instant(1000), duration(2), is_slow)


def attempted(number: int, ending: str, delay: int, error: Members) -> Members:
    """The attempt of this number, of two, which ended so. It is slow where it was delayed."""
    return {**status(number, 2, went(ending, delay > 0), duration(0, delay)), **error}


def of_first(secs: int, members: Members, **before: object) -> Line:
    """An event of the first test."""
    return event(secs, {**test_members(1), **before, **members})


def test_start(assigned: Members, words: Sequence[str]) -> Line:
    return of_first(1001, test_started(numbered(1), assigned, sorted_stats(), 1, words))


def test_retry(words: Sequence[str]) -> Line:
    return of_first(1001, retry_started(numbered(1), slot(), attempt_of(2, 2), 1, words))


def test_was_slow(stress_index: Members, will_terminate: bool) -> Line:
    return of_first(
        1002,
        slow_test(numbered(1), attempt_of(1, 2), duration(60, 7), will_terminate),
        **stress_index,
    )


def failed(stress_index: Members, run_status: Members, delay: int) -> Line:
    """An attempt failed, after which another one follows in so many seconds."""
    return of_first(1002, attempt_failed(run_status, numbered(1), duration(delay)), **stress_index)


def finished(
    endings: str,
    flaky_result: str,
    error: Members,
    current_stats: Members = sorted_stats(),
) -> Line:
    """A test finished, whose attempts ended so."""
    attempts = [attempted(number, ending, 0, error) for number, ending in enumerate(endings, 1)]
    return of_first(
        1002,
        test_finished(
            *attempts,
            of=numbered(1),
            counts=current_stats,
            stores=(False, True),
            flaky=("failure", flaky_result),
            shown="immediate",
        ),
    )


def of_db_init(secs: int, members: Members, stress_index: Members) -> Line:
    """An event of the setup script `db-init`."""
    return event(
        secs, {**stress_index, "script-id": "db-init", "program": "sh", "args": [], **members}
    )


def db_init(kind: str, stress_index: Members, more: Members) -> Line:
    """It starts or ends."""
    return of_db_init(
        1002, {"index": 0, "total": 1, "no-capture": False, "kind": kind, **more}, stress_index
    )


def script_was_slow(stress_index: Members, will_terminate: bool) -> Line:
    return of_db_init(
        1002, slow_script("db-init", "sh", duration(60, 7), will_terminate), stress_index
    )


def run_start(profile: str, cli_args: Sequence[str], stress_condition: Members) -> Line:
    return event(1000, run_started(profile, cli_args, stress_condition))


def run_finish(elapsed: Members, stress: Members, not_seen: Members) -> Line:
    return event(1002, run_finished({"stress": stress}, 1000, elapsed, **not_seen))


def args(phase: str, category: str, name: str, text: str) -> Holds:
    """A trace that has an event of this phase, category and name with these args."""
    line = f'{{"args":{unwrapped(text).strip()},"cat":"{category}","name":"{name}","ph":"{phase}",'
    return has(line.encode())


def of_script(phase: str, name: str, text: str) -> Holds:
    """A trace that has an event of this phase and name of a setup script with these args."""
    return args(phase, "setup-script", name, text)


LIGHT = test_start(slot(), [])
INDEX = {"stress-index": {"current": 3}}
INDEX_OF_FIVE = {"stress-index": {"current": 3, "total": 5}}

FAILED_OF_ALL = """\
{"attempt":1,"binary_id":"alpha::a","delay_before_next_attempt":{"nanos":0,"secs":4},
    "delay_before_start":{"nanos":6,"secs":0},
    "error":{"description":"thread panicked","short_message":"exit code 101"},"is_slow":true,
    "result":{"fail":{"failure":{"exit-code":101},"leaked":false}},"stress_index":{"current":3,
    "total":null},"test_group":"heavy",
    "test_name":"t1","time_taken":{"nanos":0,"secs":2},"total_attempts":2}
"""

FAILED_OF_LEAST = """\
{"attempt":1,"binary_id":"alpha::a","is_slow":false,"result":"exec-fail","test_group":"@global",
    "test_name":"t1",
    "time_taken":{"nanos":0,"secs":2},"total_attempts":2}
"""

PASSED_AT_ONCE = """\
{"attempt":1,"binary_id":"alpha::a","is_slow":false,"result":"pass","test_group":"@global",
    "test_name":"t1",
    "time_taken":{"nanos":0,"secs":2},"total_attempts":2}
"""

PASSED_AT_LAST = """\
{"attempt":2,"binary_id":"alpha::a","flaky_result":"pass","is_slow":false,"result":"pass",
    "test_group":"@global","test_name":"t1",
    "time_taken":{"nanos":0,"secs":2},"total_attempts":2}
"""

FLAKY_FAILURE = """\
{"attempt":2,"binary_id":"alpha::a",
    "error":{"description":"test passed on attempt 2/2 but is configured to fail when flaky",
    "short_message":"flaky failure"},"flaky_result":"fail","is_slow":false,"result":"pass",
    "test_group":"@global",
    "test_name":"t1","time_taken":{"nanos":0,"secs":2},"total_attempts":2}
"""

FLAKY_FAILURE_WITH_ERROR = """\
{"attempt":2,"binary_id":"alpha::a","error":{"description":"thread panicked",
    "short_message":"exit code 101"},
    "flaky_result":"fail","is_slow":false,"result":"pass","test_group":"@global","test_name":"t1",
    "time_taken":{"nanos":0,"secs":2},"total_attempts":2}
"""

FAILED_AT_LAST = """\
{"attempt":2,"binary_id":"alpha::a","is_slow":false,"result":"exec-fail","test_group":"@global",
    "test_name":"t1",
    "time_taken":{"nanos":0,"secs":2},"total_attempts":2}
"""

FAILED_BUSY = """\
{"attempt":1,"binary_id":"alpha::a","cpu_time":{"nanos":0,"secs":1},"is_slow":false,
    "result":"exec-fail","test_group":"@global",
    "test_name":"t1","time_taken":{"nanos":0,"secs":2},"total_attempts":2}
"""

PASSED_BUSY = """\
{"attempt":2,"binary_id":"alpha::a","cpu_time":{"nanos":0,"secs":1},"flaky_result":"pass",
    "is_slow":false,"result":"pass",
    "test_group":"@global","test_name":"t1","time_taken":{"nanos":0,"secs":2},"total_attempts":2}
"""

ATTEMPTS = [
    (
        "a failure of all",
        [test_start(HEAVY, []), failed(INDEX, attempted(1, "c", 6, ERROR), 4)],
        FAILED_OF_ALL,
    ),
    ("a failure of least", [LIGHT, failed({}, attempted(1, "x", 0, {}), 0)], FAILED_OF_LEAST),
    ("passed at once", [LIGHT, finished("p", "fail", {})], PASSED_AT_ONCE),
    ("passed at last", [LIGHT, finished("cp", "pass", {})], PASSED_AT_LAST),
    ("a flaky failure", [LIGHT, finished("cp", "fail", {})], FLAKY_FAILURE),
    (
        "a flaky failure with an error",
        [LIGHT, finished("cp", "fail", ERROR)],
        FLAKY_FAILURE_WITH_ERROR,
    ),
    ("failed at last", [LIGHT, finished("cx", "fail", {})], FAILED_AT_LAST),
    (
        "a failure with a time of processors",
        [LIGHT, failed({}, attempted(1, "x", 0, BUSY), 0)],
        FAILED_BUSY,
    ),
    ("passed with a time of processors", [LIGHT, finished("cp", "pass", BUSY)], PASSED_BUSY),
]

STARTS = [
    (
        "words of a start",
        test_start(slot(), ["a", "--exact"]),
        '{"binary_id":"alpha::a","command_line":["a","--exact"],"test_name":"t1"}',
    ),
    ("no words of a start", LIGHT, '{"binary_id":"alpha::a","test_name":"t1"}'),
    (
        "words of a retry",
        test_retry(["a"]),
        (
            '{"attempt":2,"binary_id":"alpha::a","command_line":["a"],"test_name":"t1",'
            '"total_attempts":2}'
        ),
    ),
    (
        "no words of a retry",
        test_retry([]),
        '{"attempt":2,"binary_id":"alpha::a","test_name":"t1","total_attempts":2}',
    ),
]

SLOW_TEST_OF_ALL = """\
{"attempt":1,"binary_id":"alpha::a","elapsed":{"nanos":7,"secs":60},"stress_index":{"current":3,
    "total":5},"test_name":"t1",
    "will_terminate":true}
"""
SLOW_TEST_OF_LEAST = """\
{"attempt":1,"binary_id":"alpha::a","elapsed":{"nanos":7,"secs":60},"test_name":"t1",
    "will_terminate":false}
"""
DB_INIT = db_init("setup-script-started", {}, {})
FAILED_SCRIPT = db_init(
    "setup-script-finished", INDEX, {"run-status": {**went("c", True), **ERROR}}
)
PASSED_SCRIPT = db_init("setup-script-finished", {}, {"run-status": went("p", False)})

SCRIPT_END_OF_ALL = """\
{"error":{"description":"thread panicked","short_message":"exit code 101"},"is_slow":true,
    "result":{"fail":{"failure":{"exit-code":101},"leaked":false}},"script_id":"db-init",
    "stress_index":{"current":3,"total":null},"time_taken":{"nanos":0,"secs":2}}
"""
SCRIPT_END_OF_LEAST = """\
{"is_slow":false,"result":"pass","script_id":"db-init","time_taken":{"nanos":0,"secs":2}}
"""
SLOW_SCRIPT_OF_ALL = """\
{"elapsed":{"nanos":7,"secs":60},"script_id":"db-init","stress_index":{"current":3,"total":5},
    "will_terminate":true}
"""
SLOW_SCRIPT_OF_LEAST = """\
{"elapsed":{"nanos":7,"secs":60},"script_id":"db-init","will_terminate":false}
"""

SCRIPT_ENDS = [
    ("the end of a setup script of all", FAILED_SCRIPT, SCRIPT_END_OF_ALL),
    ("the end of a setup script of least", PASSED_SCRIPT, SCRIPT_END_OF_LEAST),
]

SLOW_SCRIPTS = [
    ("a slow setup script of all", script_was_slow(INDEX_OF_FIVE, True), SLOW_SCRIPT_OF_ALL),
    ("a slow setup script of least", script_was_slow({}, False), SLOW_SCRIPT_OF_LEAST),
]
CI_RUN = run_start("ci", ["nextest", "run"], {"stress-condition": {"count": 3}})

RUN_OF_ALL = """\
{"cli_args":["nextest","run"],"nextest_version":"0.9.111","profile":"ci",
    "run_id":"550e8400-e29b-41d4-a716-446655440000",
    "stress_condition":{"count":3}}
"""
RUN_OF_LEAST = """\
{"cli_args":[],"nextest_version":"0.9.111","profile":"default",
    "run_id":"550e8400-e29b-41d4-a716-446655440000"}
"""
THIRD_OF_THREE = {
    "completed": {"current": 2, "total": 3},
    "success-count": 2,
    "failed-count": 1,
    "last-final-stats": "no-tests-run",
}
FIRST = {
    "completed": {"current": 0},
    "success-count": 1,
    "failed-count": 0,
    "last-final-stats": "success",
}
SEVEN_NOT_SEEN = {"outstanding-not-seen": {"not-seen": [], "total-not-seen": 7}}

RUN_END_OF_ALL = """\
{"nextest_version":"0.9.111","outstanding_not_seen":{"total_not_seen":7},"profile":"ci",
    "run_stats":{"stress":{"completed":{"current":2,"total":3},"failed-count":1,
    "last-final-stats":"no-tests-run",
    "success-count":2}},"time_taken":{"nanos":5,"secs":11}}
"""

RUN_END_OF_LEAST = """\
{"nextest_version":"0.9.111","profile":"default","run_stats":{"stress":{"completed":{"current":0},
    "failed-count":0,
    "last-final-stats":"success","success-count":1}},"time_taken":{"nanos":0,"secs":0}}
"""
COUNTED = event(1001, sub_run_started(4, 9))

TIMED = {"time": {"total": duration(60), "elapsed": duration(9), "completed": 4}}
TIMED_END = event(1002, sub_run_finished(TIMED, duration(2, 1), sorted_stats()))
COUNTED_PROGRESS = '{"progress":{"count":{"completed":4,"elapsed":{"nanos":0,"secs":9}}}}'

SUB_RUN_END = """\
{"progress":{"time":{"completed":4,"elapsed":{"nanos":0,"secs":9},"total":{"nanos":0,"secs":60}}},
    "sub_stats":{"exec-failed":0,"failed":0,"failed-slow":0,"failed-timed-out":0,
    "finished-count":0,"flaky":0,
    "initial-run-count":0,"leaky":0,"leaky-failed":0,"passed":0,"passed-slow":0,
    "passed-timed-out":0,
    "setup-scripts-exec-failed":0,"setup-scripts-failed":0,"setup-scripts-finished-count":0,
    "setup-scripts-initial-count":0,
    "setup-scripts-passed":0,"setup-scripts-timed-out":0,"skipped":0},"time_taken":{"nanos":1,
    "secs":2}}
"""

# Whole trace events.

BEGIN_WITH_ARGS = (
    '{"args":{"binary_id":"alpha::a","test_name":"t1"},"cat":"test","name":"t1","ph":"B","pid":2,'
    '"tid":10000,"ts":1002000000}'
)
END_WITHOUT_ARGS = '{"cat":"test","name":"t1","ph":"E","pid":2,"tid":10000,"ts":-5}'

EACH_CATEGORY = """\
B run:test run 0/1 1000000000
B stress:sub-run 0/2 1000000000
B setup-script:db1 1/10000 1000000000
B test:t1 2/10000 1000000000
"""

NAMES_OF_THE_RUN = [
    (
        '{"args":{"name":"nextest run"},"cat":"","name":"process_name","ph":"M","pid":0,"tid":0,'
        '"ts":0}'
    ),
    (
        '{"args":{"sort_index":0},"cat":"","name":"process_sort_index","ph":"M","pid":0,"tid":0,'
        '"ts":0}'
    ),
    '{"args":{"name":"run"},"cat":"","name":"thread_name","ph":"M","pid":0,"tid":1,"ts":0}',
    '{"args":{"sort_index":1},"cat":"","name":"thread_sort_index","ph":"M","pid":0,"tid":1,"ts":0}',
]

NAMES_OF_ANOTHER = [
    '{"args":{"name":"beta::b"},"cat":"","name":"process_name","ph":"M","pid":3,"tid":0,"ts":0}',
    (
        '{"args":{"sort_index":3},"cat":"","name":"process_sort_index","ph":"M","pid":3,"tid":0,'
        '"ts":0}'
    ),
    '{"args":{"name":"slot-1"},"cat":"","name":"thread_name","ph":"M","pid":3,"tid":10001,"ts":0}',
    (
        '{"args":{"sort_index":10001},"cat":"","name":"thread_sort_index","ph":"M","pid":3,'
        '"tid":10001,"ts":0}'
    ),
]
CONCURRENCY = (
    '{"args":{"running_scripts":0,"running_tests":1},"cat":"run","name":"concurrency","ph":"C",'
    '"pid":0,"tid":0,"ts":1002000000}'
)
RESULTS = (
    '{"args":{"failed":2,"flaky":1,"passed":5},"cat":"run","name":"test results","ph":"C","pid":0,'
    '"tid":0,"ts":1002000000}'
)
RESULTS_COUNTED = sorted_stats(passed=5, flaky=1, failed=2)
RESULTS_SUMMED = sorted_stats(passed=5, flaky=1, failed=2, exec_failed=3, failed_timed_out=4)
SUM = '{"failed":9,"flaky":1,"passed":5}'
PAST_64_BITS: Members = {**RESULTS_SUMMED, "exec-failed": 18446744073709551615}
MARKED: Members = {"setup-scripts-running": 0, "running": 1}
PAUSE: Members = {**MARKED, "kind": "run-paused"}
CANCEL: Members = {**MARKED, "kind": "run-begin-cancel", "reason": "test-failure-immediate"}
PAUSED = """\
{"args":{"running":1,"setup_scripts_running":0},"cat":"run","name":"paused","ph":"i","pid":0,
    "s":"p","tid":1,"ts":1002000000}
"""
CONTINUED = """\
{"args":{"running":1,"setup_scripts_running":0},"cat":"run","name":"continued","ph":"i","pid":0,
    "s":"p","tid":1,"ts":1002000000}
"""

CANCELLED = """\
{"args":{"reason":"test-failure-immediate","running":1,"setup_scripts_running":0},"cat":"run",
    "name":"cancel","ph":"i","pid":0,
    "s":"p","tid":1,"ts":1002000000}
"""
SLOW_TEST = '"cat":"test","name":"slow","ph":"i","pid":2,"s":"t","tid":10003,"ts":1002000000}'
SLOW_SCRIPT = (
    '"cat":"setup-script","name":"slow","ph":"i","pid":1,"s":"t","tid":10000,"ts":1002000000}'
)
# Both with all members: of the second of three attempts of a test that will be stopped, and of a
# setup script in a stress run.
STOPPED = of_first(1002, slow_test(numbered(1), attempt_of(2, 3), duration(60, 5), True))
STRESSED = event(
    1002, {"stress-index": {"current": 1}, **slow_script("db1", "sh", duration(60, 5))}
)
SLOW_AND_STOPPED = (
    '{"args":{"attempt":2,"binary_id":"alpha::a","elapsed":{"nanos":5,"secs":60},'
    '"test_name":"t1","will_terminate":true},'
) + SLOW_TEST
SLOW_UNDER_STRESS = (
    '{"args":{"elapsed":{"nanos":5,"secs":60},"script_id":"db1","stress_index":{"current":1,'
    '"total":null},"will_terminate":false},' + SLOW_SCRIPT
)
ARROW_START = '{"cat":"test","id":0,"name":"retry","ph":"s","pid":2,"tid":10001,"ts":1002000000}'
ARROW_FINISH = (
    '{"bp":"e","cat":"test","id":0,"name":"retry","ph":"f","pid":2,"tid":10001,"ts":1002000000}'
)


def lines(*texts: str) -> Holds:
    """A trace that has these trace events one after the other."""
    return has(",".join(unwrapped(text).strip() for text in texts).encode())


def named(name: str, kind: str) -> Holds:
    """A trace that gives this name to a process or a thread."""
    return has(f'{{"args":{{"name":"{name}"}},"cat":"","name":"{kind}",'.encode())


CASES = [
    *[
        case
        for name, events, wanted in ATTEMPTS
        for case in printed(name, events, args("E", "test", "t1", wanted))
    ],
    *[
        case
        for name, line, wanted in STARTS
        for case in printed(name, [line], args("B", "test", "t1", wanted))
    ],
    *printed(
        "a slow test of all",
        [LIGHT, test_was_slow(INDEX_OF_FIVE, True)],
        args("i", "test", "slow", SLOW_TEST_OF_ALL),
    ),
    *printed(
        "a slow test of least",
        [LIGHT, test_was_slow({}, False)],
        args("i", "test", "slow", SLOW_TEST_OF_LEAST),
    ),
    *[
        case
        for name, line, wanted in SCRIPT_ENDS
        for case in printed(name, [DB_INIT, line], of_script("E", "db-init", wanted))
    ],
    *[
        case
        for name, line, wanted in SLOW_SCRIPTS
        for case in printed(name, [DB_INIT, line], of_script("i", "slow", wanted))
    ],
    *printed("a run of all", [CI_RUN], args("B", "run", "test run", RUN_OF_ALL)),
    *printed(
        "a run of least", [run_start("default", [], {})], args("B", "run", "test run", RUN_OF_LEAST)
    ),
    *printed(
        "the end of a run of all",
        [CI_RUN, run_finish(duration(11, 5), THIRD_OF_THREE, SEVEN_NOT_SEEN)],
        args("E", "run", "test run", RUN_END_OF_ALL),
    ),
    *printed(
        "the end of a run of least",
        [run(1000), run_finish(duration(0), FIRST, {})],
        args("E", "run", "test run", RUN_END_OF_LEAST),
    ),
    *printed("a sub-run", [COUNTED], args("B", "stress", "sub-run", COUNTED_PROGRESS)),
    *printed(
        "the end of a sub-run", [COUNTED, TIMED_END], args("E", "stress", "sub-run", SUB_RUN_END)
    ),
    *printed("a begin with args", [start(1002, 1, 0)], lines(BEGIN_WITH_ARGS)),
    *printed(
        "an end without args",
        [start(-1, 1, 0), event(-1, PAUSE, 999995000)],
        lines(END_WITHOUT_ARGS),
    ),
    *outlined(
        "each category",
        "B",
        [run(1000), sub_run(1000), script(1000, 0, 1), start(1000, 1, 0)],
        EACH_CATEGORY,
    ),
    *printed("names of the run", [pause(1000, 0)], lines(*NAMES_OF_THE_RUN)),
    *printed(
        "names of another process", [start(1000, 1, 0), start(1000, 3, 1)], lines(*NAMES_OF_ANOTHER)
    ),
    *printed("the name of no profile", [pause(1000, 0)], named("nextest run", "process_name")),
    *printed("the name of a profile", [CI_RUN], named("nextest run (ci)", "process_name")),
    *printed("the name of a slot", [start(1000, 1, 12)], named("slot-12", "thread_name")),
    *printed("the name of a setup script", [script(1000, 0, 1)], named("script-0", "thread_name")),
    *printed("the counter of what runs", [start(1002, 1, 0)], lines(CONCURRENCY)),
    *printed(
        "the counter of results",
        [LIGHT, finished("p", "pass", {}, RESULTS_COUNTED)],
        lines(RESULTS),
    ),
    *printed(
        "a sum of failures",
        [LIGHT, finished("p", "pass", {}, RESULTS_SUMMED)],
        args("C", "run", "test results", SUM),
    ),
    *refused(
        [LIGHT, finished("p", "pass", {}, PAST_64_BITS)], 9, "CountOutOfRange event=2", ["binary"]
    ),
    *printed("a pause", [event(1002, PAUSE)], lines(PAUSED)),
    *printed(
        "a continuation", [event(1002, {**MARKED, "kind": "run-continued"})], lines(CONTINUED)
    ),
    *printed("a cancel", [event(1002, CANCEL)], lines(CANCELLED)),
    *printed(
        "the row of a slow test", [start(1001, 1, 3), test_was_slow({}, False)], lines(SLOW_TEST)
    ),
    *printed(
        "the row of a slow setup script", [DB_INIT, script_was_slow({}, False)], lines(SLOW_SCRIPT)
    ),
    *printed(
        "a slow test that will be stopped", [start(1001, 1, 3), STOPPED], lines(SLOW_AND_STOPPED)
    ),
    *printed(
        "a slow setup script in a stress run",
        [script(1001, 0, 1), STRESSED],
        lines(SLOW_UNDER_STRESS),
    ),
    *printed("the start of an arrow", [start(1001, 1, 1), fail(1002, 1)], lines(ARROW_START)),
    *printed(
        "the finish of an arrow",
        [start(1001, 1, 1), fail(1001, 1), retry(1002, 1, 1)],
        lines(ARROW_FINISH),
    ),
]
