"""Values that are no events: without a member that has to be there, with null for it, or with
another value in its place.
"""

from __future__ import annotations

from collections.abc import Iterator, Mapping, Sequence
from typing import TypeAlias

from workshop.cases.case import Case
from workshop.cases.events import stats
from workshop.cases.line_cases import IN_LOG, IN_SESSION, CaseOf
from workshop.cases.made import text

# The statistics of a run in which nothing happened, and the same without the skipped tests.
NO_STATS = text(stats(initial_run_count=0))
NO_SKIPPED = NO_STATS.replace(',"skipped":0', "")

# An attempt that was not executed.
NOT_EXECUTED = (
    '{"retry-data":{"attempt":1,"total-attempts":1},"output":{"start-error":""},'
    '"result":"exec-fail","start-time":{"secs":0,"nanos":0,"offset":0},"time-taken":{"secs":0,'
    '"nanos":0},"is-slow":false,"delay-before-start":{"secs":0,"nanos":0}}'
)

# What names a setup script.
DB_SCRIPT = {"script-id": '"db"', "program": '"sh"', "args": "[]"}

# The members of each kind, but for those that may be missing; and members that it has not.
SUB_RUN_START = {
    "kind": '"stress-sub-run-started"',
    "progress": '{"count":{"total":4,"elapsed":{"secs":2,"nanos":3},"completed":1}}',
}

NO_SUB_RUN_START = {
    "kind": ['"Stress-Sub-Run-Started"'],
    "progress": [
        '"count"',
        "{}",
        '{"count":null}',
        '{"count":{}}',
        '{"Count":{"elapsed":{"secs":2,"nanos":3},"completed":1}}',
        '{"count":{"total":4,"completed":1}}',
        '{"count":{"total":4,"elapsed":{"secs":2,"nanos":3}}}',
        '{"count":{"total":4294967296,"elapsed":{"secs":2,"nanos":3},"completed":1}}',
        '{"count":{"elapsed":{"secs":2,"nanos":3},"completed":-1}}',
        '{"count":{"elapsed":{"secs":2,"nanos":3},"completed":1.0}}',
        '{"time":{"elapsed":{"secs":2,"nanos":3},"completed":1}}',
        '{"time":{"total":4,"elapsed":{"secs":2,"nanos":3},"completed":1}}',
        '{"count":{"elapsed":{"secs":2,"nanos":3},"completed":1},"x":0}',
    ],
}

SCRIPT_START = {
    "kind": '"setup-script-started"',
    "index": "0",
    "total": "1",
    **DB_SCRIPT,
    "no-capture": "false",
}

NO_SCRIPT_START = {
    "kind": ['"SetupScriptStarted"'],
    "index": ["-1", "0.0", '"0"'],
    "total": ["18446744073709551616", "[1]"],
    "script-id": ["0", '["db"]'],
    "program": ["true"],
    "args": ['"-c"', "[null]", "{}"],
    "no-capture": ["0", '"false"'],
    "stress-index": ["{}", '{"current":4294967296}', '{"current":0,"total":0}'],
}

SLOW_SCRIPT = {
    "kind": '"setup-script-slow"',
    **DB_SCRIPT,
    "slow-elapsed": '{"secs":60,"nanos":0}',
    "will-terminate": "true",
}

NO_SLOW_SCRIPT = {
    "kind": ['"SETUP-SCRIPT-SLOW"'],
    "script-id": ["{}"],
    "program": ["[]"],
    "args": ['[["-c"]]'],
    "slow-elapsed": [
        "60",
        '{"secs":60}',
        '{"secs":-1,"nanos":0}',
        '{"secs":60,"nanos":1000000000}',
    ],
    "will-terminate": ['"true"', "1"],
    "stress-index": ["1"],
}

SLOW_TEST = {
    "kind": '"test-slow"',
    "test-instance": '{"binary-id":"alpha::a","test-name":"t1"}',
    "retry-data": '{"attempt":1,"total-attempts":3}',
    "slow-elapsed": '{"secs":60,"nanos":0}',
    "will-terminate": "false",
}

NO_SLOW_TEST = {
    "kind": ['"test_slow"'],
    "test-instance": [
        '"alpha::a t1"',
        '{"test-name":"t1"}',
        '{"binary-id":"alpha::a","test-name":1}',
    ],
    "retry-data": [
        '{"attempt":1}',
        '{"total-attempts":3}',
        '{"attempt":4294967296,"total-attempts":3}',
        '{"attempt":1,"total-attempts":3e0}',
    ],
    "slow-elapsed": ['{"nanos":0}', "[60,0]"],
    "will-terminate": ["0"],
    "stress-index": ['{"total":1}'],
}

RETRY = {
    "kind": '"test-retry-started"',
    "test-instance": '{"binary-id":"alpha::a","test-name":"t1"}',
    "slot-assignment": '{"global-slot":0,"test-group":"@global"}',
    "retry-data": '{"attempt":2,"total-attempts":3}',
    "running": "1",
    "command-line": "[]",
}

NO_RETRY = {
    "kind": ['"Test-retry-started"'],
    "test-instance": ["[]"],
    "slot-assignment": [
        '{"global-slot":0}',
        '{"global-slot":-1,"test-group":"@global"}',
        '{"global-slot":0,"group-slot":1.5,"test-group":"@global"}',
        '{"global-slot":0,"test-group":null}',
    ],
    "retry-data": ["2", '{"attempt":-1,"total-attempts":3}'],
    "running": ["18446744073709551616", "-0"],
    "command-line": ['"t"'],
    "stress-index": ['{"current":0,"total":4294967296}'],
}

SKIP = {
    "kind": '"test-skipped"',
    "test-instance": '{"binary-id":"alpha::a","test-name":"t1"}',
    "reason": '"ignored"',
    "junit-report-skipped": '"none"',
}

NO_SKIP = {
    "kind": ['"test-skip"'],
    "test-instance": ['{"binary-id":null,"test-name":"t1"}'],
    "reason": ['"Ignored"', '"none"', '""', '{"ignored":null}', '["ignored"]'],
    "junit-report-skipped": ['"string"', "false", '{"all":true}'],
    "stress-index": ["[]"],
}

CANCEL = {
    "kind": '"run-begin-cancel"',
    "setup-scripts-running": "0",
    "running": "1",
    "reason": '"signal"',
}

NO_CANCEL = {
    "kind": ['"run-cancel"'],
    "setup-scripts-running": ["-1", "1.0"],
    "running": ["true", "18446744073709551616"],
    "reason": ['"Signal"', '"ignored"', '{"signal":null}', "2"],
}

PAUSE = {
    "kind": '"run-paused"',
    "setup-scripts-running": "0",
    "running": "1",
}

CONTINUATION = {
    "kind": '"run-continued"',
    "setup-scripts-running": "0",
    "running": "1",
}

# Kinds that neither of them is, and other members.
NO_KIND = {
    "kind": ['"run-pause"', '"Run-Paused"', '"run-continue"', '{"run-paused":null}'],
}

NO_PAUSE = {
    "setup-scripts-running": ["-1", '"0"', "18446744073709551616"],
    "running": ["-1", "1e0", "[]"],
}

SUB_RUN_END = {
    "kind": '"stress-sub-run-finished"',
    "progress": '{"count":{"elapsed":{"secs":2,"nanos":3},"completed":1}}',
    "sub-elapsed": '{"secs":1,"nanos":0}',
    "sub-stats": NO_STATS,
}

NO_SUB_RUN_END = {
    "kind": ['"stress-sub-run-ended"'],
    "progress": [
        "1",
        '{"count":{"elapsed":{"secs":2,"nanos":3},"completed":4294967296}}',
        '{"time":{"total":null,"elapsed":{"secs":2,"nanos":3},"completed":1}}',
    ],
    "sub-elapsed": ["1", '{"secs":1,"nanos":-1}'],
    "sub-stats": ["{}", NO_SKIPPED, "[]"],
}

RUN_END = {
    "kind": '"run-finished"',
    "run-id": '"550e8400-e29b-41d4-a716-446655440000"',
    "start-time": '{"secs":1000,"nanos":0,"offset":0}',
    "run-elapsed": '{"secs":9,"nanos":0}',
    "run-stats": (
        '{"stress":{"completed":{"current":0},"success-count":1,"failed-count":0,'
        '"last-final-stats":"success"}}'
    ),
}

NO_RUN_END = {
    "kind": ['"RunFinished"'],
    "run-id": ['"550e8400"', "1"],
    "start-time": [
        '{"secs":1000,"nanos":0}',
        '{"secs":9223372036854775808,"nanos":0,"offset":0}',
        '{"secs":1000,"nanos":0,"offset":2147483648}',
    ],
    "run-elapsed": ['{"secs":18446744073709551616,"nanos":0}', "9"],
    "outstanding-not-seen": [
        "[]",
        '{"not-seen":[]}',
        '{"not-seen":["t1"],"total-not-seen":1}',
        '{"not-seen":[],"total-not-seen":-1}',
    ],
    "run-stats": [
        '"single"',
        "{}",
        NO_STATS,
        '{"single":{}}',
        '{"single":null}',
        (
            '{"stress":{"completed":0,"success-count":1,"failed-count":0,'
            '"last-final-stats":"success"}}'
        ),
        (
            '{"stress":{"completed":{"current":0},"success-count":4294967296,"failed-count":0,'
            '"last-final-stats":"success"}}'
        ),
        '{"stress":{"completed":{"current":0},"success-count":1,"last-final-stats":"success"}}',
        (
            '{"stress":{"completed":{"current":0},"success-count":1,"failed-count":0,'
            '"last-final-stats":"Success"}}'
        ),
        (
            '{"stress":{"completed":{"current":0},"success-count":1,"failed-count":0,'
            '"last-final-stats":"success"},"x":0}'
        ),
    ],
}

SCRIPT_END = {
    "kind": '"setup-script-finished"',
    "index": "0",
    "total": "1",
    **DB_SCRIPT,
    "no-capture": "false",
    "run-status": (
        '{"output":{"start-error":""},"result":"pass","start-time":{"secs":0,"nanos":0,'
        '"offset":0},"time-taken":{"secs":0,"nanos":0},"is-slow":false}'
    ),
}

NO_SCRIPT_END = {
    "kind": ['"setup-script-ended"', '"Setup-script-finished"'],
    "index": ["-1"],
    "total": ['"1"'],
    "script-id": ["[]"],
    "program": ["0"],
    "args": ["[0]"],
    "no-capture": ['"no"'],
    "stress-index": ['{"current":-1}'],
    "run-status": [
        "{}",
        '"pass"',
        "[]",
        (
            '{"retry-data":{"attempt":1,"total-attempts":1},"result":"pass","start-time":{"secs":0,'
            '"nanos":0,"offset":0},"time-taken":{"secs":0,"nanos":0},"is-slow":false}'
        ),
    ],
}

FAILURE = {
    "kind": '"test-attempt-failed-will-retry"',
    "test-instance": '{"binary-id":"alpha::a","test-name":"t1"}',
    "run-status": NOT_EXECUTED.replace('"total-attempts":1', '"total-attempts":2'),
    "delay-before-next-attempt": '{"secs":1,"nanos":0}',
    "failure-output": '"immediate"',
    "running": "0",
}

NO_FAILURE = {
    "kind": ['"test-attempt-failed"', '"test-attempt-failed-will-RETRY"'],
    "test-instance": ["{}"],
    "run-status": [
        "{}",
        "[]",
        NOT_EXECUTED.replace('"retry-data":{"attempt":1,"total-attempts":1},', ""),
    ],
    "delay-before-next-attempt": ["1", '{"secs":1,"nanos":1000000000}'],
    "failure-output": ['"Immediate"', "true"],
    "running": ["-1", "18446744073709551616"],
    "stress-index": ['{"current":1,"total":"4"}'],
}

TEST_END = {
    "kind": '"test-finished"',
    "test-instance": '{"binary-id":"alpha::a","test-name":"t1"}',
    "success-output": '"never"',
    "failure-output": '"immediate"',
    "junit-store-success-output": "true",
    "junit-store-failure-output": "false",
    "junit-flaky-fail-status": '"failure"',
    "run-statuses": '{"statuses":[' + NOT_EXECUTED + '],"flaky-result":"pass"}',
    "current-stats": NO_STATS,
    "running": "0",
}

NO_TEST_END = {
    "kind": ['"test-finish"', '"TestFinished"'],
    "test-instance": ["{}", '"t1"'],
    "success-output": ['"Never"', "true"],
    "failure-output": ['"immediate_final"', "[]"],
    "junit-store-success-output": ["1", '"true"'],
    "junit-store-failure-output": ["0", "{}"],
    "junit-flaky-fail-status": ['"fail"', "false"],
    "current-stats": ["{}", "0"],
    "running": ["-1", "1.0", "18446744073709551616"],
    "stress-index": ['{"current":0,"total":0}'],
}

NO_STATUSES = {
    "run-statuses": [
        "{}",
        "[]",
        '"pass"',
        '{"flaky-result":"pass"}',
        '{"statuses":[],"flaky-result":"pass"}',
        '{"statuses":null,"flaky-result":"pass"}',
        '{"statuses":' + NOT_EXECUTED + ',"flaky-result":"pass"}',
        '{"statuses":[{}],"flaky-result":"pass"}',
        '{"statuses":[' + NOT_EXECUTED + "]}",
        '{"statuses":[' + NOT_EXECUTED + '],"flaky-result":null}',
        '{"statuses":[' + NOT_EXECUTED + '],"flaky-result":"Pass"}',
        '{"statuses":[' + NOT_EXECUTED + '],"flaky-result":true}',
    ],
}


# The members of an event with their JSON, and the JSON that each of some may not have.
Fields: TypeAlias = Mapping[str, str]
Others: TypeAlias = Mapping[str, Sequence[str]]


def event_of(members: Fields) -> str:
    times = '{"timestamp":{"secs":1000,"nanos":0,"offset":0},"elapsed":{"secs":0,"nanos":0}'
    return times + "".join(f',"{key}":{value}' for key, value in members.items()) + "}"


def without(members: Fields, key: str) -> dict[str, str]:
    return {name: value for name, value in members.items() if name != key}


def required(
    name: str,
    read: CaseOf,
    refused: CaseOf,
    members: Fields,
    others: Others,
    tried: Sequence[str] = (),
) -> Iterator[Case]:
    """The members make an event.

    None without one of them, with null for it, or with another member in its place.

    Without those that are `tried`, the event is one of another kind that is tried already.
    """
    yield read(name, event_of(members))
    for key in [key for key in members if key not in tried]:
        rest = without(members, key)
        yield refused(f"{name} without {key}", event_of(rest))
        yield refused(f"{name} with null for {key}", event_of({**rest, key: "null"}))
    for key, other in ((key, other) for key, values in others.items() for other in values):
        event = event_of({**without(members, key), key: other})
        yield refused(f"{name} with {key} {other}", event)


CASES = [
    *required("start of a sub-run", *IN_SESSION, SUB_RUN_START, NO_SUB_RUN_START),
    *required("start of a setup script", *IN_SESSION, SCRIPT_START, NO_SCRIPT_START),
    *required("slow setup script", *IN_SESSION, SLOW_SCRIPT, NO_SLOW_SCRIPT),
    *required("slow test", *IN_SESSION, SLOW_TEST, NO_SLOW_TEST),
    *required("retry", *IN_SESSION, RETRY, NO_RETRY),
    *required("skipped test", *IN_SESSION, SKIP, NO_SKIP),
    *required("cancel", *IN_SESSION, CANCEL, NO_CANCEL),
    *required("pause", *IN_SESSION, PAUSE, NO_KIND | NO_PAUSE),
    *required("continuation", *IN_SESSION, CONTINUATION, NO_PAUSE, tried=("kind",)),
    *required("end of a sub-run", *IN_SESSION, SUB_RUN_END, NO_SUB_RUN_END),
    *required("end of a run", *IN_SESSION, RUN_END, NO_RUN_END),
    *required("end of a setup script", *IN_LOG, SCRIPT_END, NO_SCRIPT_END),
    *required("failed attempt", *IN_SESSION, FAILURE, NO_FAILURE),
    *required("end of a test", *IN_SESSION, TEST_END, NO_TEST_END),
    *required("end of a test", *IN_LOG, TEST_END, NO_STATUSES),
]
