"""Cpu times of attempts: recorded, and read from stores of the version that has them and of the one
before.
"""

from __future__ import annotations

from workshop.cases.case import SOME, Case, entry_is, has
from workshop.cases.line_cases import (
    read_of_log,
    refused_in_log,
    refused_in_session,
    written,
    written_as,
)
from workshop.cases.made import ONE_TEST, OPTIONS, bundle, held, log_of
from workshop.cases.texts import (
    MANIFEST,
    NEWER_STORE,
    RUN_STARTED,
    SMALL_TRACE,
    TEST_STARTED,
    finished,
    replaced,
    session_of,
)

# A cpu time of one second, as it is logged.
ONE_SECOND = b'"cpu-time":{"nanos":0,"secs":1},'

# The member of an attempt of a session, and the first of the attempt in the log.
RECORDED = [
    (b'"cpu-time":{"secs":1,"nanos":0},', ONE_SECOND),
    (b'"cpu-time":null,', b""),
    (b"", b""),
]
WHOLE_SECOND_OF_NANOSECONDS = b'"cpu-time":{"secs":0,"nanos":1000000000},'
STORE = held(
    (b"meta/test-list.json", ONE_TEST),
    (b"meta/record-opts.json", OPTIONS),
    (b"out/ba7816bf8f01cfea-stdout", b"abc"),
)

# `abc` on standard output, as a log names it.
STORED_ABC = b'{"split":{"stdout":{"full":"ba7816bf8f01cfea-stdout"},"stderr":"empty"}}'

# The end of a run that took 3 seconds.
RUN_FINISHED = (
    b'{"timestamp":{"secs":1003,"nanos":0,"offset":0},"elapsed":{"secs":3,"nanos":0},'
    b'"kind":"run-finished","run-id":"550e8400-e29b-41d4-a716-446655440000",'
    b'"start-time":{"secs":1000,"nanos":0,"offset":0},"run-elapsed":{"secs":3,"nanos":0},'
    b'"run-stats":{"stress":{"completed":{"current":0},"success-count":1,"failed-count":0,'
    b'"last-final-stats":"success"}}}'
)

REPLAY = b"""\
header 550e8400-e29b-41d4-a716-446655440000 incomplete
1000.000000000 run-started
1001.000000000 test-started alpha::a t1
1002.000000000 test-finished alpha::a t1 stdout=3 stderr=0
"""

REPORT = (
    b'{"name":"nextest-run","run-id":"550e8400-e29b-41d4-a716-446655440000",'
    b'"suites":[{"cases":[{"classname":"alpha::a","name":"t1","status":{"success":[]},'
    b'"time":{"nanos":0,"secs":1},"timestamp":{"nanos":0,"offset":0,"secs":1001}}],'
    b'"name":"alpha::a","properties":[]}],"time":{"nanos":0,"secs":3},"timestamp":{"nanos":0,'
    b'"offset":0,"secs":1000}}\n'
)

# Minor versions of the store that are read, and the first of an attempt in their logs. A log of
# version 3.0 may have a cpu time too.
READ_VERSIONS = [(b"0", b""), (b"0", ONE_SECOND), (b"1", b""), (b"1", ONE_SECOND)]

# The trace of an attempt with this member: its end has the time, too.
TRACES = {
    b"": SMALL_TRACE,
    ONE_SECOND: replaced(
        SMALL_TRACE,
        b'"binary_id":"alpha::a","is_slow"',
        b'"binary_id":"alpha::a","cpu_time":{"nanos":0,"secs":1},"is_slow"',
    ),
}

# An attempt that failed, as a session has it, up to the last members of its status; and as it is
# logged.
BEFORE_LAST_MEMBERS = (
    '{"timestamp":{"secs":1002,"nanos":0,"offset":0},"elapsed":{"secs":2,"nanos":0},'
    '"kind":"test-attempt-failed-will-retry","test-instance":{"binary-id":"alpha::a",'
    '"test-name":"t1"},"delay-before-next-attempt":{"secs":0,"nanos":0},"failure-output":"never",'
    '"running":0,"run-status":{"retry-data":{"attempt":1,"total-attempts":2},'
    '"output":{"start-error":""},"result":"exec-fail","start-time":{"secs":1001,"nanos":0,'
    '"offset":0},"time-taken":{"secs":1,"nanos":0},"is-slow":false,"delay-before-start":{"secs":0,'
    '"nanos":0}'
)

BEFORE_FIRST_MEMBERS = (
    '{"delay-before-next-attempt":{"nanos":0,"secs":0},"elapsed":{"nanos":0,"secs":2},'
    '"failure-output":"never","kind":"test-attempt-failed-will-retry","run-status":{'
)

AFTER_FIRST_MEMBERS = (
    '"delay-before-start":{"nanos":0,"secs":0},"is-slow":false,"output":{"start-error":""},'
    '"result":"exec-fail","retry-data":{"attempt":1,"total-attempts":2},"start-time":{"nanos":0,'
    '"offset":0,"secs":1001},"time-taken":{"nanos":0,"secs":1}},"running":0,'
    '"test-instance":{"binary-id":"alpha::a","test-name":"t1"},"timestamp":{"nanos":0,"offset":0,'
    '"secs":1002}}'
)

# Members at the end of a status, and those that are then first in it.
CPU_TIMES = [
    ("", ""),
    (',"cpu-time":{"secs":1,"nanos":0}', '"cpu-time":{"nanos":0,"secs":1},'),
    (',"cpu-time":{"secs":0,"nanos":0}', '"cpu-time":{"nanos":0,"secs":0},'),
    (
        ',"cpu-time":{"secs":18446744073709551615,"nanos":999999999}',
        '"cpu-time":{"nanos":999999999,"secs":18446744073709551615},',
    ),
]

NO_CPU_TIMES = [
    ',"cpu-time":{"secs":0,"nanos":1000000000}',
    ',"cpu-time":{"secs":-1,"nanos":0}',
    ',"cpu-time":{"secs":1}',
    ',"cpu-time":{"nanos":1}',
    ',"cpu-time":1',
    ',"cpu-time":false',
]


def finished_test(member: bytes, *outputs: bytes) -> bytes:
    """The line of a finished test with this member first in its attempt."""
    return replaced(finished(*outputs), b'"retry-data"', member + b'"retry-data"')


def manifest_of(minor: bytes) -> bytes:
    """The manifest of a minor version of the store's format."""
    return replaced(
        MANIFEST, b'"store-format-minor-version":1', b'"store-format-minor-version":' + minor
    )


def bundle_of(minor: bytes, member: bytes, last: bytes) -> bytes:
    """A bundle whose store has this minor version, with this member first in the attempt, and this
    line at the log's end.
    """
    log = log_of(RUN_STARTED, TEST_STARTED, finished_test(member, STORED_ABC), last)
    return bundle(log, STORE, manifest_of(minor))


def with_last(members: str) -> str:
    """The attempt that failed, with these members at the end of its status."""
    return BEFORE_LAST_MEMBERS + members + "}}"


def with_first(members: str) -> str:
    """The same as it is logged, with these members first in its status."""
    return BEFORE_FIRST_MEMBERS + members + AFTER_FIRST_MEMBERS


CASES = [
    *[
        Case(
            f"{member!r} is recorded",
            ("record", "b"),
            session_of(RUN_STARTED, TEST_STARTED, finished_test(member)),
            out=SOME,
            file=entry_is(b"run.log.zst", has(b'"statuses":[{' + first + b'"delay-before-start"')),
        )
        for member, first in RECORDED
    ],
    Case(
        "a whole second of nanoseconds is no cpu time",
        ("record", "b", "--read-limit", "1000000"),
        session_of(TEST_STARTED, finished_test(WHOLE_SECOND_OF_NANOSECONDS)),
        5,
        err=b"ParseEvent line_number=3\n",
    ),
    *[
        Case(
            f"{command} of version 3.{minor.decode()} with {member!r}",
            (command,),
            bundle_of(minor, member, last),
            out=out,
        )
        for minor, member in READ_VERSIONS
        for command, last, out in [
            ("info", b"", manifest_of(minor) + b"\n"),
            ("trace", b"", TRACES[member]),
            ("replay", b"", REPLAY),
            ("report", RUN_FINISHED, REPORT),
        ]
    ],
    *[
        Case(
            f"{command} of version 3.2",
            (command,),
            bundle_of(b"2", ONE_SECOND, b""),
            12,
            err=NEWER_STORE,
        )
        for command in ("info", "trace", "replay", "report")
    ],
    *written_as(
        "time of processors", [(with_last(last), with_first(first)) for last, first in CPU_TIMES]
    ),
    # It is logged as one without a time.
    written("time of processors null", with_last(',"cpu-time":null'), with_first("")),
    read_of_log("time of processors null", with_last(',"cpu-time":null')),
    *(
        refused_in_session(f"no time of processors {members}", with_last(members))
        for members in NO_CPU_TIMES
    ),
    *(
        refused_in_log(f"no time of processors {members}", with_last(members))
        for members in NO_CPU_TIMES
    ),
]
