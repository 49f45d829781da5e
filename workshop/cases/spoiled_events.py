"""Events of which one part is missing or is another: they are no events."""

from __future__ import annotations

from collections.abc import Iterator, Sequence

from workshop.cases.case import Case
from workshop.cases.events import NO_COUNTS
from workshop.cases.line_cases import IN_LOG, IN_SESSION, CaseOf, refused_in_session
from workshop.cases.texts import attempt_with, end_after

MISSING = '"y":0'  # stands for a missing member, and is ignored

# The end of a setup script, up to its status; the members of that, by their places; and members
# that it has not.
BEFORE_SCRIPT_STATUS = (
    '{"timestamp":{"secs":0,"nanos":0,"offset":0},"elapsed":{"secs":0,"nanos":0},'
    '"kind":"setup-script-finished","index":0,"total":1,"script-id":"db","program":"sh","args":[],'
    '"no-capture":false,"run-status":'
)

SCRIPT_STATUS = [
    '"output":{"output":{"output":{"split":{}}}}',
    '"result":"pass"',
    '"start-time":{"secs":0,"nanos":0,"offset":0}',
    '"time-taken":{"secs":0,"nanos":0}',
    '"is-slow":false',
    '"env-map":{"a":"b"}',
    '"error-summary":{"short-message":"","description":""}',
]

NO_SCRIPT_STATUS = [
    (0, MISSING),
    (0, '"output":null'),
    (0, '"output":{}'),
    (0, '"output":{"output":{"split":{}}}'),
    (0, '"output":{"output":{"output":{"combined":null}}}'),
    (0, '"output":{"output":{"output":{"combined":"0"}}}'),
    (0, '"output":{"output":{"output":{"split":{"stdout":"0g"}}}}'),
    (0, '"output":{"output":{"output":{"split":{},"combined":""}}}'),
    (0, '"output":{"start-error":5}'),
    (1, MISSING),
    (1, '"result":"fail"'),
    (1, '"result":{"fail":{"failure":{"exit-code":2147483648},"leaked":false}}'),
    (1, '"result":{"fail":{"failure":{"exit-code":1}}}'),
    (2, MISSING),
    (2, '"start-time":null'),
    (3, MISSING),
    (3, '"time-taken":"0"'),
    (4, MISSING),
    (4, '"is-slow":null'),
    (4, '"is-slow":0'),
    (5, '"env-map":{"a":1}'),
    (5, '"env-map":{"a":"b","c":null}'),
    (5, '"env-map":["a","b"]'),
    (5, '"env-map":"a=b"'),
    (6, '"error-summary":"short"'),
    (6, '"error-summary":{"short-message":""}'),
]

# The same of an attempt that failed.
BEFORE_ATTEMPT = (
    '{"timestamp":{"secs":0,"nanos":0,"offset":0},"elapsed":{"secs":0,"nanos":0},'
    '"kind":"test-attempt-failed-will-retry","test-instance":{"binary-id":"alpha::a",'
    '"test-name":"t1"},"delay-before-next-attempt":{"secs":1,"nanos":0},'
    '"failure-output":"immediate","running":0,"run-status":'
)

ATTEMPT = [
    '"retry-data":{"attempt":1,"total-attempts":2}',
    '"output":{"output":{"output":{"combined":""}}}',
    '"result":{"leak":"fail"}',
    '"start-time":{"secs":0,"nanos":0,"offset":0}',
    '"time-taken":{"secs":0,"nanos":0}',
    '"is-slow":false',
    '"delay-before-start":{"secs":0,"nanos":0}',
    '"error-summary":null',
    '"output-error-slice":null',
]

NO_ATTEMPT = [
    (0, MISSING),
    (0, '"retry-data":null'),
    (1, MISSING),
    (1, '"output":{"start-error":"","x":0}'),
    (1, '"output":{"output":{"output":{"combined":"empty"}}}'),
    (1, '"output":{"output":{"result":"passed","output":{"combined":""}}}'),
    (1, '"output":{"output":{"output":{"combined":""},"errors":"late"}}'),
    (2, MISSING),
    (2, '"result":"leak"'),
    (2, '"result":{"leak":"Fail"}'),
    (3, MISSING),
    (4, MISSING),
    (4, '"time-taken":{"secs":1.5,"nanos":0}'),
    (5, MISSING),
    (6, MISSING),
    (6, '"delay-before-start":null'),
    (7, '"error-summary":[]'),
    (8, '"output-error-slice":{"slice":""}'),
    (8, '"output-error-slice":{"slice":"","start":-1}'),
]

# The same of whole events.
RUN_START = [
    '"timestamp":{"secs":1000,"nanos":0,"offset":0}',
    '"elapsed":{"secs":0,"nanos":0}',
    '"kind":"run-started"',
    '"run-id":"550e8400-e29b-41d4-a716-446655440000"',
    '"profile-name":"default"',
    '"cli-args":[]',
    MISSING,
]

NO_RUN_START = [
    (0, MISSING),
    (0, '"timestamp":{"secs":1000,"nanos":1000000000,"offset":0}'),
    (0, '"timestamp":{"secs":1000.0,"nanos":0,"offset":0}'),
    (1, MISSING),
    (1, '"elapsed":null'),
    (2, MISSING),
    (2, '"kind":"run-paused"'),
    (2, '"kind":"RunStarted"'),
    (2, '"kind":["run-started"]'),
    (3, MISSING),
    (3, '"run-id":5'),
    (3, '"run-id":"550e8400"'),
    (3, '"run-id":null'),
    (4, MISSING),
    (4, '"profile-name":null'),
    (5, MISSING),
    (5, '"cli-args":null'),
    (5, '"cli-args":[1]'),
    (5, '"cli-args":{}'),
    (6, '"stress-condition":{}'),
]

TEST_START = [
    (
        '"timestamp":{"secs":1000,"nanos":0,"offset":0},"elapsed":{"secs":0,"nanos":0},'
        '"kind":"test-started"'
    ),
    '"test-instance":{"binary-id":"alpha::a","test-name":"t1"}',
    '"slot-assignment":{"global-slot":0,"test-group":"@global"}',
    '"current-stats":' + NO_COUNTS,
    '"running":1',
    '"command-line":[]',
    MISSING,
]

NO_TEST_START = [
    (1, MISSING),
    (1, '"test-instance":null'),
    (1, '"test-instance":{"binary-id":"alpha::a"}'),
    (2, MISSING),
    (2, '"slot-assignment":{"test-group":"@global"}'),
    (2, '"slot-assignment":null'),
    (3, MISSING),
    (3, '"current-stats":null'),
    (3, '"current-stats":{}'),
    (4, MISSING),
    (4, '"running":null'),
    (4, '"running":-1'),
    (4, '"running":1.0'),
    (4, '"running":18446744073709551616'),
    (5, MISSING),
    (5, '"command-line":null'),
    (5, '"command-line":"t"'),
    (6, '"stress-index":{"current":0,"total":0}'),
]

NO_OUTPUTS = [
    '{"output":{"output":{"split":{"stdout":"6f6"}}}}',
    '{"output":{"output":{"combined":null}}}',
    '{"output":{}}',
    '{"start-error":null}',
    '"start-error"',
    '{"output":{"output":{"split":{}}},"start-error":""}',
]

NO_OBJECTS = ["null", "1", '"run-started"', "[]", "{}"]

WITHOUT_TIMES = [
    '{"elapsed":{"secs":0,"nanos":0},"kind":"run-paused","setup-scripts-running":0,"running":0}',
    (
        '{"timestamp":{"secs":0,"nanos":0,"offset":0},"kind":"run-paused",'
        '"setup-scripts-running":0,"running":0}'
    ),
    (
        '{"timestamp":null,"elapsed":{"secs":0,"nanos":0},"kind":"run-paused",'
        '"setup-scripts-running":0,"running":0}'
    ),
    (
        '{"timestamp":{"secs":0,"nanos":0,"offset":0},"elapsed":0,"kind":"run-paused",'
        '"setup-scripts-running":0,"running":0}'
    ),
]


def object_of(members: Sequence[str], at: int | None = None, other: str = "") -> str:
    """The object of these members, with another in the place of the one at `at`."""
    chosen = [other if number == at else member for number, member in enumerate(members)]
    return ",".join(['{"x":0', *chosen]) + "}"


def replaced(
    name: str,
    read: CaseOf,
    refused: CaseOf,
    members: Sequence[str],
    others: Sequence[tuple[int, str]],
    before: str = "",
    after: str = "",
) -> Iterator[Case]:
    """The members make what stands between these texts, and not with another in the place of one of
    them.
    """
    yield read(name, before + object_of(members) + after)
    for at, other in others:
        yield refused(
            f"{name} with {other} for {members[at]}", before + object_of(members, at, other) + after
        )


CASES = [
    *replaced(
        "status of a setup script",
        *IN_SESSION,
        SCRIPT_STATUS,
        NO_SCRIPT_STATUS,
        BEFORE_SCRIPT_STATUS,
        "}",
    ),
    *replaced("status of an attempt", *IN_SESSION, ATTEMPT, NO_ATTEMPT, BEFORE_ATTEMPT, "}"),
    *replaced("start of a run", *IN_SESSION, RUN_START, NO_RUN_START),
    *replaced("start of a test", *IN_LOG, TEST_START, NO_TEST_START),
    *(
        refused_in_session(f"end of a test with {output}", end_after(attempt_with(output)))
        for output in NO_OUTPUTS
    ),
    refused_in_session("end of a test without attempts", end_after()),
    refused_in_session("end of a test with another object for an attempt", end_after("{}")),
    *(refused_in_session(f"no object: {text}", text) for text in NO_OBJECTS),
    *(refused_in_session(f"no times: {text}", text) for text in WITHOUT_TIMES),
]
