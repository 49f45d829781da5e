"""Events that contradict each other, need what isn't open, or count too far: `record` and `trace`
refuse them.
"""

from __future__ import annotations

from typing import NamedTuple

from workshop.cases import histories
from workshop.cases.case import SOME, Case, entry_is, has
from workshop.cases.events import (
    NOT_STARTED,
    attempt_failed,
    attempt_of,
    course,
    progress,
    retry_started,
    run_finished,
    script_ended,
    script_members,
    script_started,
    slot,
    slow_script,
    slow_test,
    stats,
    status,
    stopped,
    sub_run_finished,
    sub_run_started,
    test_skipped,
)
from workshop.cases.made import Members, bundle, duration, instant, line, log_of
from workshop.cases.outlines import GROUPINGS, refused, refused_by_record, refused_by_trace
from workshop.cases.texts import (
    RUN_PAUSED,
    RUN_STARTED,
    TEST_STARTED,
    finished,
    replaced,
    session_of,
)


class Refusal(NamedTuple):
    """A history, the line that refuses it, and the status."""

    lines: list[histories.Line]
    fault: str
    status: int = 8


class Last(NamedTuple):
    """What the last of some events is, the events, the status and the line for them."""

    what: str
    events: tuple[bytes, ...]
    status: int
    line: bytes


# What ends or is slow without having started.
MISSING = [
    Refusal(
        [histories.end(1000, 1, 0)], "MissingTestStart event=1 binary_id=alpha::a test_name=t1"
    ),
    Refusal([histories.fail(1000, 1)], "MissingTestStart event=1 binary_id=alpha::a test_name=t1"),
    Refusal([histories.slow(1000, 3)], "MissingTestStart event=1 binary_id=beta::b test_name=t3"),
    Refusal(
        [
            histories.run(1000),
            histories.start(1001, 1, 0),
            histories.end(1002, 1, 0),
            histories.end(1003, 1, 0),
        ],
        "MissingTestStart event=4 binary_id=alpha::a test_name=t1",
    ),
    Refusal(
        [histories.start(1000, 1, 0), histories.fail(1001, 1), histories.end(1002, 1, 0)],
        "MissingTestStart event=3 binary_id=alpha::a test_name=t1",
    ),
    Refusal(
        [histories.start(1000, 1, 0), histories.fail(1001, 1), histories.slow(1002, 1)],
        "MissingTestStart event=3 binary_id=alpha::a test_name=t1",
    ),
    Refusal(
        [histories.start(1000, 1, 0), histories.fail(1001, 1), histories.fail(1002, 1)],
        "MissingTestStart event=3 binary_id=alpha::a test_name=t1",
    ),
    Refusal(
        [histories.start(1000, 1, 0), histories.end(1001, 2, 0)],
        "MissingTestStart event=2 binary_id=alpha::a test_name=t2",
    ),
    Refusal([histories.script_end(1000, 0, 1)], "MissingScriptStart event=1 script_id=db1"),
    Refusal([histories.script_slow(1000, 1)], "MissingScriptStart event=1 script_id=db1"),
    Refusal(
        [histories.script(1000, 0, 1), histories.script_end(1001, 0, 2)],
        "MissingScriptStart event=2 script_id=db2",
    ),
    Refusal(
        [histories.script(1000, 0, 1), histories.script_end(1001, 1, 1)],
        "MissingScriptStart event=2 script_id=db1",
    ),
    Refusal(
        [
            histories.script(1000, 0, 1),
            histories.script_slow(1001, 1),
            histories.script_slow(1002, 2),
        ],
        "MissingScriptStart event=3 script_id=db2",
    ),
    Refusal([histories.run(1000), histories.sub_run_end(1001)], "MissingStressSubRunStart event=2"),
    Refusal(
        [histories.sub_run(1000), histories.sub_run_end(1001), histories.sub_run_end(1002)],
        "MissingStressSubRunStart event=3",
    ),
]

# What starts while it is open, or on a slot that is held.
OPEN = [
    Refusal([histories.run(1000), histories.run(1001)], "SpanAlreadyOpen event=2 span=Run"),
    Refusal(
        [histories.run(1000), histories.run_end(1001), histories.run(1002), histories.run(1003)],
        "SpanAlreadyOpen event=4 span=Run",
    ),
    Refusal(
        [histories.sub_run(1000), histories.sub_run(1001)], "SpanAlreadyOpen event=2 span=SubRun"
    ),
    Refusal(
        [histories.script(1000, 0, 1), histories.script(1001, 0, 2)],
        "SpanAlreadyOpen event=2 span=Script 0",
    ),
    Refusal(
        [histories.start(1000, 1, 0), histories.run(1001), histories.start(1002, 1, 1)],
        "SpanAlreadyOpen event=3 span=Test binary_id=alpha::a test_name=t1",
    ),
    Refusal(
        [histories.retry(1000, 1, 0), histories.retry(1001, 1, 0)],
        "SpanAlreadyOpen event=2 span=Test binary_id=alpha::a test_name=t1",
    ),
    Refusal(
        [histories.pause(1000, 0), histories.start(1001, 1, 0), histories.start(1002, 1, 1)],
        "SpanAlreadyOpen event=3 span=Test binary_id=alpha::a test_name=t1",
    ),
    Refusal([histories.start(1000, 1, 7), histories.start(1001, 2, 7)], "SlotBusy event=2 slot=7"),
    Refusal([histories.start(1000, 1, 7), histories.retry(1001, 3, 7)], "SlotBusy event=2 slot=7"),
    Refusal(
        [histories.start(1000, 1, 0), histories.start(1001, 2, 1), histories.start(1002, 1, 1)],
        "SpanAlreadyOpen event=3 span=Test binary_id=alpha::a test_name=t1",
    ),
    Refusal(
        [histories.start(1000, 1, 0), histories.pause(1001, 0), histories.retry(1002, 3, 0)],
        "SlotBusy event=3 slot=0",
    ),
]

# Numbers of rows and counts that are out of range, with the statuses.
NUMBERS = [
    Refusal(
        [histories.start(1000, 1, 18446744073709541616)],
        "RowOutOfRange event=1 number=18446744073709541616",
        9,
    ),
    Refusal(
        [histories.retry(1000, 1, 18446744073709551615)],
        "RowOutOfRange event=1 number=18446744073709551615",
        9,
    ),
    Refusal(
        [histories.script(1000, 18446744073709541616, 1)],
        "RowOutOfRange event=1 number=18446744073709541616",
        9,
    ),
    Refusal(
        [
            histories.start(1000, 1, 18446744073709541615),
            histories.start(1001, 1, 18446744073709541616),
        ],
        "SpanAlreadyOpen event=2 span=Test binary_id=alpha::a test_name=t1",
        8,
    ),
    Refusal(
        [histories.start(1000, 1, 0), histories.end(1001, 1, 18446744073709551615)],
        "CountOutOfRange event=2",
        9,
    ),
    Refusal(
        [histories.end(1000, 1, 18446744073709551615)],
        "MissingTestStart event=1 binary_id=alpha::a test_name=t1",
        8,
    ),
    Refusal(
        [histories.pause(1000, 18446744073709551615), histories.script(1001, 0, 1)],
        "CountOutOfRange event=2",
        9,
    ),
    Refusal(
        [
            histories.cancel(1000, 18446744073709551614),
            histories.script(1001, 0, 1),
            histories.script(1002, 1, 2),
        ],
        "CountOutOfRange event=3",
        9,
    ),
    Refusal(
        [
            histories.script(1000, 0, 1),
            histories.go_on(1001, 18446744073709551615),
            histories.script(1002, 1, 1),
        ],
        "CountOutOfRange event=3",
        9,
    ),
    Refusal(
        [
            histories.script(1000, 0, 1),
            histories.pause(1001, 18446744073709551615),
            histories.script(1002, 0, 1),
        ],
        "SpanAlreadyOpen event=3 span=Script 0",
        8,
    ),
    Refusal(
        [
            histories.pause(1000, 18446744073709551615),
            histories.script(1001, 18446744073709551615, 1),
        ],
        "RowOutOfRange event=2 number=18446744073709551615",
        9,
    ),
]

# A second whose microseconds are no i64.
FAR = 9223372036855

# An event of each kind at that second, first in its history.
LATE_EVENTS = [
    histories.run(FAR),
    histories.run_end(FAR),
    histories.sub_run(FAR),
    histories.sub_run_end(FAR),
    histories.script(FAR, 0, 1),
    histories.script_end(FAR, 0, 1),
    histories.script_slow(FAR, 1),
    histories.start(FAR, 1, 0),
    histories.fail(FAR, 1),
    histories.retry(FAR, 1, 0),
    histories.end(FAR, 1, 0),
    histories.slow(FAR, 1),
    histories.skip(FAR, 1),
    histories.pause(FAR, 0),
    histories.go_on(FAR, 0),
    histories.cancel(FAR, 0),
    histories.run(-9223372036855),
]

# Lines that are no events, and events before them: a session is refused for its lines first, and
# has its head as line 1.
UNREAD_LINES = [
    Refusal([histories.FAULTY], "ParseEvent line_number=2", 5),
    Refusal(
        [histories.run(1000), histories.FAULTY, histories.run(1001)], "ParseEvent line_number=3", 5
    ),
    Refusal(
        [histories.run(1000), histories.run(1001), histories.FAULTY], "ParseEvent line_number=4", 5
    ),
]

UNREAD_LOGS = [
    Refusal([histories.FAULTY], "ReadError ParseEvent line_number=1", 5),
    Refusal(
        [histories.run(1000), histories.FAULTY, histories.run(1001)],
        "ReadError ParseEvent line_number=2",
        5,
    ),
    Refusal(
        [histories.run(1000), histories.run(1001), histories.FAULTY],
        "SpanAlreadyOpen event=2 span=Run",
        8,
    ),
]

# Events at second 1002.
SECOND_1002 = instant(1002)
COUNTING = progress(0, 1)
SUB_RUN_STARTED = line(sub_run_started(0, 1), SECOND_1002)
SUB_RUN_FINISHED = line(sub_run_finished(COUNTING, duration(1), stats()), SECOND_1002)
SCRIPT_STARTED = line(script_started(script_members(3)), SECOND_1002)
SCRIPT_SLOW = line(slow_script("db 1", "sh", duration(1)), SECOND_1002)

# The end of a test whose outputs were not captured. A session and a log have the same text of it.
TEST_FINISHED = finished(b'{"split":{}}')
MOST = b"18446744073709551615"
LATE = replaced(RUN_STARTED, b'"secs":1000', b'"secs":9223372036855')
OTHER_TEST = replaced(TEST_STARTED, b'"t1"', b'"t2"')
MOST_SLOT = replaced(TEST_STARTED, b'"global-slot":0', b'"global-slot":' + MOST)
MOST_INDEX = replaced(SCRIPT_STARTED, b'"index":3', b'"index":' + MOST)
MOST_FAILED = replaced(
    replaced(TEST_FINISHED, b'"failed":0', b'"failed":' + MOST),
    b'"exec-failed":0',
    b'"exec-failed":1',
)
MOST_SCRIPTS = replaced(
    RUN_PAUSED, b'"setup-scripts-running":0', b'"setup-scripts-running":' + MOST
)
MISSING_TEST = b"MissingTestStart event=4 binary_id=alpha::a test_name=t1\n"
OPEN_TEST = b"SpanAlreadyOpen event=2 span=Test binary_id=alpha::a test_name=t1\n"
PAST_LAST_ROW = b"RowOutOfRange event=2 number=18446744073709551615\n"

# Events of which the last is refused.
REFUSED = [
    Last("a second run", (RUN_STARTED, RUN_STARTED), 8, b"SpanAlreadyOpen event=2 span=Run\n"),
    Last(
        "a second sub-run",
        (SUB_RUN_STARTED, SUB_RUN_STARTED),
        8,
        b"SpanAlreadyOpen event=2 span=SubRun\n",
    ),
    Last(
        "a script that runs",
        (SCRIPT_STARTED, SCRIPT_STARTED),
        8,
        b"SpanAlreadyOpen event=2 span=Script 3\n",
    ),
    Last("a test that runs", (TEST_STARTED, TEST_STARTED), 8, OPEN_TEST),
    Last(
        "a test on a busy slot",
        (RUN_STARTED, TEST_STARTED, OTHER_TEST),
        8,
        b"SlotBusy event=3 slot=0\n",
    ),
    Last(
        "a test that has ended",
        (RUN_STARTED, TEST_STARTED, TEST_FINISHED, TEST_FINISHED),
        8,
        MISSING_TEST,
    ),
    Last(
        "a slow script that doesn't run",
        (RUN_STARTED, SUB_RUN_STARTED, SCRIPT_STARTED, SCRIPT_SLOW),
        8,
        b"MissingScriptStart event=4 script_id=db 1\n",
    ),
    Last(
        "a sub-run that has ended",
        (RUN_STARTED, SUB_RUN_STARTED, SUB_RUN_FINISHED, RUN_PAUSED, SUB_RUN_FINISHED),
        8,
        b"MissingStressSubRunStart event=5\n",
    ),
    Last("an instant out of range", (LATE,), 9, b"TimestampOutOfRange event=1\n"),
    Last("a slot out of range", (RUN_STARTED, MOST_SLOT), 9, PAST_LAST_ROW),
    Last("an index out of range", (RUN_STARTED, MOST_INDEX), 9, PAST_LAST_ROW),
    Last(
        "a failed test too many",
        (RUN_STARTED, RUN_PAUSED, TEST_STARTED, MOST_FAILED),
        9,
        b"CountOutOfRange event=4\n",
    ),
    Last(
        "a script too many",
        (RUN_STARTED, SUB_RUN_STARTED, MOST_SCRIPTS, SCRIPT_STARTED),
        9,
        b"CountOutOfRange event=4\n",
    ),
]

PAST_LAST_SLOT = replaced(TEST_STARTED, b'"global-slot":0', b'"global-slot":18446744073709541616')
TOO_MANY_FAILED = replaced(
    replaced(finished(), b'"failed":0', b'"failed":18446744073709551615'),
    b'"exec-failed":0',
    b'"exec-failed":1',
)

# The same for `record` alone, under a read limit that is above all.
LIMITED = ("record", "b", "--read-limit", "65536")
LIMITED_RECORDS = [
    Last(
        "a test that isn't running",
        (RUN_STARTED, finished()),
        8,
        b"MissingTestStart event=2 binary_id=alpha::a test_name=t1\n",
    ),
    Last(
        "a second start of the run",
        (RUN_STARTED, RUN_STARTED),
        8,
        b"SpanAlreadyOpen event=2 span=Run\n",
    ),
    Last("a second start of a test", (TEST_STARTED, TEST_STARTED), 8, OPEN_TEST),
    Last("another test on a slot", (TEST_STARTED, OTHER_TEST), 8, b"SlotBusy event=2 slot=0\n"),
    Last(
        "a faulty line after what can't be drawn",
        (finished(), b"{}"),
        5,
        b"ParseEvent line_number=3\n",
    ),
    Last("an instant out of range", (LATE, RUN_STARTED), 9, b"TimestampOutOfRange event=1\n"),
    Last(
        "a slot past the last row",
        (RUN_STARTED, PAST_LAST_SLOT),
        9,
        b"RowOutOfRange event=2 number=18446744073709541616\n",
    ),
    Last(
        "failed tests that 64 bits can't count",
        (TEST_STARTED, TOO_MANY_FAILED),
        9,
        b"CountOutOfRange event=2\n",
    ),
]

# Events after the start of a run.

NOT_EXECUTED = course(NOT_STARTED, "exec-fail", instant(1001), duration(1))
FIRST_ATTEMPT = attempt_of(1, 2)
NO_SCRIPT = b"MissingScriptStart event=2 script_id=db\n"
NO_TEST = b"MissingTestStart event=2 binary_id=alpha::a test_name=t1\n"

# An event of each kind, and the line that refuses it after the start of a run, none where it is
# recorded.
AFTER_START = [
    (stopped("run-paused"), b""),
    (sub_run_started(0, 1), b""),
    (script_started(), b""),
    (slow_script("db", "sh", duration(1)), NO_SCRIPT),
    (script_ended(NOT_EXECUTED), NO_SCRIPT),
    (slow_test(histories.numbered(1), FIRST_ATTEMPT, duration(1)), NO_TEST),
    (
        attempt_failed(status(1, 2, NOT_EXECUTED, duration(1)), histories.numbered(1), duration(1)),
        NO_TEST,
    ),
    (retry_started(histories.numbered(1), slot(), FIRST_ATTEMPT), b""),
    (test_skipped("t1", "ignored", "none", "alpha::a"), b""),
    (stopped("run-begin-cancel", reason="signal"), b""),
    (stopped("run-continued"), b""),
    (sub_run_finished(COUNTING, duration(1), stats()), b"MissingStressSubRunStart event=2\n"),
    (run_finished({"single": stats()}, 1001), b""),
]

# Two events are logged, and no output is stored.
COUNTS = has(
    b'"entries":2,"uncompressed"', b'"store":{"compressed":515,"entries":4,"uncompressed":377}'
)


def after_start(event: Members, refusal: bytes) -> Case:
    """A case of an event after the start of a run."""
    session = session_of(RUN_STARTED, line(event, SECOND_1002))
    if refusal:
        return Case(f"{event['kind']} after the start", ("record", "b"), session, 8, err=refusal)
    return Case(
        f"{event['kind']} after the start",
        ("record", "b"),
        session,
        out=SOME,
        file=entry_is(b"manifest.json", COUNTS),
    )


CASES = [
    *[
        case
        for lines, fault, status in MISSING + OPEN + NUMBERS
        for case in refused(lines, status, fault)
    ],
    *[
        case
        for line in LATE_EVENTS
        for case in refused([line], 9, "TimestampOutOfRange event=1", ["binary"])
    ],
    *[
        refused_by_record(lines, status, fault, by)
        for by in GROUPINGS
        for lines, fault, status in UNREAD_LINES
    ],
    *[
        refused_by_trace(lines, status, fault, by)
        for by in GROUPINGS
        for lines, fault, status in UNREAD_LOGS
    ],
    *[
        Case(f"record of {what}", ("record", "b"), session_of(*events), status, err=line)
        for what, events, status, line in REFUSED
    ],
    *[
        Case(f"trace of {what}", ("trace",), bundle(log_of(*events)), status, err=line)
        for what, events, status, line in REFUSED
    ],
    *[
        Case(f"record of {what}, limited", LIMITED, session_of(*events), status, err=line)
        for what, events, status, line in LIMITED_RECORDS
    ],
    *[after_start(*row) for row in AFTER_START],
]
