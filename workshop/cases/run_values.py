"""Values of runs in events, as they are read and as they are logged: progress, statistics, and how
a run ended.
"""

from __future__ import annotations

from workshop.cases.events import COUNTS, NO_COUNTS
from workshop.cases.line_cases import REFUSED, Row, in_event, read_of_session

# Lines as they are logged, with VALUE for what is tried.
PROGRESS = (
    '{"elapsed":{"nanos":0,"secs":0},"kind":"stress-sub-run-started","progress":VALUE,'
    '"timestamp":{"nanos":0,"offset":0,"secs":1000}}'
)

SUB_STATS = (
    '{"elapsed":{"nanos":0,"secs":0},"kind":"stress-sub-run-finished",'
    '"progress":{"count":{"completed":1,"elapsed":{"nanos":0,"secs":0}}},"sub-elapsed":{"nanos":0,'
    '"secs":1},"sub-stats":VALUE,"timestamp":{"nanos":0,"offset":0,"secs":1000}}'
)

RUN_STATS = (
    '{"elapsed":{"nanos":0,"secs":0},"kind":"run-finished","run-elapsed":{"nanos":0,"secs":9},'
    '"run-id":"550e8400-e29b-41d4-a716-446655440000","run-stats":VALUE,"start-time":{"nanos":0,'
    '"offset":0,"secs":1000},"timestamp":{"nanos":0,"offset":0,"secs":1000}}'
)
STRESS_RUN_STATS = RUN_STATS.replace("VALUE", '{"stress":VALUE}')
LAST_STATS = STRESS_RUN_STATS.replace(
    "VALUE",
    '{"completed":{"current":2},"failed-count":0,"last-final-stats":VALUE,"success-count":0}',
)
NOT_SEEN = RUN_STATS.replace("VALUE", '{"single":%s}' % NO_COUNTS).replace(
    '"run-elapsed"', '"outstanding-not-seen":VALUE,"run-elapsed"'
)

# All counts but the last, each with another number.
COUNTED = ",".join(f'"{name}":{number}' for number, name in enumerate(sorted(COUNTS)[:-1], 1))

# What is no end of the statistics of a stress run, after their first member.
STRESS_COUNTS = [
    '"failed-count":2,"last-final-stats":"failed"',
    '"success-count":1,"last-final-stats":"failed"',
    '"success-count":1,"failed-count":2',
    '"success-count":null,"failed-count":2,"last-final-stats":"failed"',
    '"success-count":1.0,"failed-count":2,"last-final-stats":"failed"',
    '"success-count":1,"failed-count":4294967296,"last-final-stats":"failed"',
    '"success-count":1,"failed-count":-1,"last-final-stats":"failed"',
    '"success-count":1,"failed-count":2,"last-final-stats":null',
    '"success-count":1,"failed-count":2,"last-final-stats":"Failed"',
    '"success_count":1,"failed-count":2,"last-final-stats":"failed"',
]

# Values, and what they are written as once they are read.
TABLES = [
    (
        "progress",
        PROGRESS,
        [
            (
                '{"count":{"completed":0,"elapsed":{"nanos":0,"secs":0}}}',
                '{"count":{"completed":0,"elapsed":{"nanos":0,"secs":0}}}',
            ),
            (
                (
                    '{"count":{"completed":7,"elapsed":{"nanos":999999999,'
                    '"secs":18446744073709551615},"total":4294967295}}'
                ),
                (
                    '{"count":{"completed":7,"elapsed":{"nanos":999999999,'
                    '"secs":18446744073709551615},"total":4294967295}}'
                ),
            ),
            (
                '{"time":{"completed":4294967295,"elapsed":{"nanos":0,"secs":0},'
                '"total":{"nanos":999999999,"secs":18446744073709551615}}}',
                '{"time":{"completed":4294967295,"elapsed":{"nanos":0,"secs":0},'
                '"total":{"nanos":999999999,"secs":18446744073709551615}}}',
            ),
            (
                '{"count":{"total":null,"elapsed":{"secs":1,"nanos":2},"completed":3,"x":0}}',
                '{"count":{"completed":3,"elapsed":{"nanos":2,"secs":1}}}',
            ),
            (
                '{"count":{"total":0,"elapsed":{"secs":1,"nanos":2},"completed":3}}',
                '{"count":{"completed":3,"elapsed":{"nanos":2,"secs":1},"total":0}}',
            ),
            (
                '{"count":{"total":7,"elapsed":{"secs":1,"nanos":2},"completed":3,"total":null}}',
                '{"count":{"completed":3,"elapsed":{"nanos":2,"secs":1}}}',
            ),
            ('{"count":{"completed":3}}', REFUSED),
            ('{"count":{"elapsed":{"secs":1,"nanos":2}}}', REFUSED),
            ('{"count":{"elapsed":null,"completed":3}}', REFUSED),
            ('{"count":{"elapsed":{"secs":1,"nanos":2},"completed":null}}', REFUSED),
            ('{"count":{"elapsed":{"secs":1,"nanos":2},"completed":3.0}}', REFUSED),
            ('{"count":{"elapsed":{"secs":1,"nanos":2},"completed":4294967296}}', REFUSED),
            (
                '{"count":{"total":4294967296,"elapsed":{"secs":1,"nanos":2},"completed":3}}',
                REFUSED,
            ),
            ('{"count":{"total":1.0,"elapsed":{"secs":1,"nanos":2},"completed":3}}', REFUSED),
            ('{"count":{"total":-1,"elapsed":{"secs":1,"nanos":2},"completed":3}}', REFUSED),
            ('{"count":{"elapsed":{"secs":1,"nanos":1000000000},"completed":3}}', REFUSED),
            (
                (
                    '{"time":{"total":{"secs":5,"nanos":6},"elapsed":{"secs":1,"nanos":2},'
                    '"completed":3,"x":[]}}'
                ),
                (
                    '{"time":{"completed":3,"elapsed":{"nanos":2,"secs":1},"total":{"nanos":6,'
                    '"secs":5}}}'
                ),
            ),
            ('{"time":{"elapsed":{"secs":1,"nanos":2},"completed":3}}', REFUSED),
            ('{"time":{"total":null,"elapsed":{"secs":1,"nanos":2},"completed":3}}', REFUSED),
            ('{"time":{"total":5,"elapsed":{"secs":1,"nanos":2},"completed":3}}', REFUSED),
            ('{"time":{"total":{"secs":5,"nanos":6},"completed":3}}', REFUSED),
            ('{"time":{"total":{"secs":5,"nanos":6},"elapsed":{"secs":1,"nanos":2}}}', REFUSED),
            (
                (
                    '{"time":{"total":{"secs":5,"nanos":6},"elapsed":{"secs":1,"nanos":2},'
                    '"completed":-1}}'
                ),
                REFUSED,
            ),
            (
                (
                    '{"time":{"total":{"secs":5.5,"nanos":6},"elapsed":{"secs":1,"nanos":2},'
                    '"completed":3}}'
                ),
                REFUSED,
            ),
            ('{"Count":{"elapsed":{"secs":1,"nanos":2},"completed":3}}', REFUSED),
            (
                (
                    '{"duration":{"total":{"secs":5,"nanos":6},"elapsed":{"secs":1,"nanos":2},'
                    '"completed":3}}'
                ),
                REFUSED,
            ),
            ('{"count":{"elapsed":{"secs":1,"nanos":2},"completed":3},"x":0}', REFUSED),
            ('{"elapsed":{"secs":1,"nanos":2},"completed":3}', REFUSED),
            ('{"count":null}', REFUSED),
            ('{"time":[{"secs":5,"nanos":6},{"secs":1,"nanos":2},3]}', REFUSED),
            ('"count"', REFUSED),
            ('"time"', REFUSED),
            ("{}", REFUSED),
            ("null", REFUSED),
            ("3", REFUSED),
        ],
    ),
    (
        "last statistics",
        LAST_STATS,
        [
            ('"success"', '"success"'),
            ('"no-tests-run"', '"no-tests-run"'),
            ('"failed"', '"failed"'),
            ('"cancelled"', '"cancelled"'),
            ('"no_tests_run"', REFUSED),
            ('"Success"', REFUSED),
            ('"canceled"', REFUSED),
            ('{"success":null}', REFUSED),
            ('{"failed":{}}', REFUSED),
            ('["success"]', REFUSED),
            ("null", REFUSED),
            ("true", REFUSED),
            ("1", REFUSED),
        ],
    ),
    (
        "statistics of a stress run",
        STRESS_RUN_STATS,
        [
            (
                '{"success-count":0,"failed-count":0,"last-final-stats":"no-tests-run",'
                '"completed":{"current":0,"total":null},"x":0}',
                (
                    '{"completed":{"current":0},"failed-count":0,'
                    '"last-final-stats":"no-tests-run","success-count":0}'
                ),
            ),
            (
                '{"completed":{"current":4294967294,"total":4294967295},"success-count":4294967295,'
                '"failed-count":4294967294,"last-final-stats":"failed"}',
                '{"completed":{"current":4294967294,"total":4294967295},"failed-count":4294967294,'
                '"last-final-stats":"failed","success-count":4294967295}',
            ),
            ('{"success-count":0,"failed-count":0,"last-final-stats":"failed"}', REFUSED),
            (
                '{"completed":null,"success-count":0,"failed-count":0,"last-final-stats":"failed"}',
                REFUSED,
            ),
            (
                '{"completed":2,"success-count":0,"failed-count":0,"last-final-stats":"failed"}',
                REFUSED,
            ),
            (
                (
                    '{"completed":{"total":2},"success-count":0,"failed-count":0,'
                    '"last-final-stats":"failed"}'
                ),
                REFUSED,
            ),
            (
                (
                    '{"completed":{"current":0,"total":0},"success-count":0,"failed-count":0,'
                    '"last-final-stats":"failed"}'
                ),
                REFUSED,
            ),
            ('[{"current":2},1,2,"failed"]', REFUSED),
            ('"failed"', REFUSED),
            ("{}", REFUSED),
            ("null", REFUSED),
        ],
    ),
    (
        "how a run ended",
        RUN_STATS,
        [
            (
                '{"stress":{"completed":{"current":2,"total":3},"failed-count":4,'
                '"last-final-stats":"no-tests-run","success-count":1}}',
                '{"stress":{"completed":{"current":2,"total":3},"failed-count":4,'
                '"last-final-stats":"no-tests-run","success-count":1}}',
            ),
            (
                '{"stress":{"success-count":1,"failed-count":2,"last-final-stats":"cancelled",'
                '"completed":{"current":2,"total":3}}}',
                '{"stress":{"completed":{"current":2,"total":3},"failed-count":2,'
                '"last-final-stats":"cancelled","success-count":1}}',
            ),
            (
                (
                    '{"Stress":{"completed":{"current":2},"success-count":1,"failed-count":2,'
                    '"last-final-stats":"failed"}}'
                ),
                REFUSED,
            ),
            (
                (
                    '{"single":{"completed":{"current":2},"success-count":1,"failed-count":2,'
                    '"last-final-stats":"failed"}}'
                ),
                REFUSED,
            ),
            (
                (
                    '{"stress":{"completed":{"current":2},"success-count":1,"failed-count":2,'
                    '"last-final-stats":"failed"},"x":0}'
                ),
                REFUSED,
            ),
            (
                (
                    '{"completed":{"current":2},"success-count":1,"failed-count":2,'
                    '"last-final-stats":"failed"}'
                ),
                REFUSED,
            ),
            ('{"single":{}}', REFUSED),
            ('"single"', REFUSED),
            ('"stress"', REFUSED),
            ("{}", REFUSED),
            ("null", REFUSED),
            ("[]", REFUSED),
        ],
    ),
    (
        "tests not seen",
        NOT_SEEN,
        [
            ('{"total-not-seen":0,"not-seen":[],"x":null}', '{"not-seen":[],"total-not-seen":0}'),
            (
                '{"total-not-seen":18446744073709551615,"not-seen":[{"test-name":"t",'
                '"binary-id":"b"},{"binary-id":"a","test-name":""}]}',
                '{"not-seen":[{"binary-id":"b","test-name":"t"},{"binary-id":"a","test-name":""}],'
                '"total-not-seen":18446744073709551615}',
            ),
            ('{"not-seen":[]}', REFUSED),
            ('{"total-not-seen":0}', REFUSED),
            ('{"not-seen":null,"total-not-seen":0}', REFUSED),
            ('{"not-seen":{},"total-not-seen":0}', REFUSED),
            ('{"not-seen":[null],"total-not-seen":1}', REFUSED),
            ('{"not-seen":["b t"],"total-not-seen":1}', REFUSED),
            ('{"not-seen":[{"binary-id":"b"}],"total-not-seen":1}', REFUSED),
            ('{"not-seen":[],"total-not-seen":null}', REFUSED),
            ('{"not-seen":[],"total-not-seen":1.0}', REFUSED),
            ('{"not-seen":[],"total-not-seen":-1}', REFUSED),
            ('{"not-seen":[],"total-not-seen":18446744073709551616}', REFUSED),
            ('{"not_seen":[],"total_not_seen":0}', REFUSED),
            ("[[],0]", REFUSED),
            ("{}", REFUSED),
            ("0", REFUSED),
        ],
    ),
]


def counts(first: str, last: str) -> str:
    """The statistics of a run with these members before and after their counts."""
    return "{" + first + COUNTED + last + "}"


def single(first: str, last: str) -> str:
    return '{"single":' + counts(first, last) + "}"


def counts_without(key: str, *members: str) -> str:
    """All counts but this one, and then these members."""
    others = [f'"{other}":1' for other in COUNTS if other != key]
    return ",".join(['{"cancel-reason":"signal"', *others, *members]) + "}"


MOST_SKIPPED = ',"skipped":18446744073709551615'
INTERRUPTED = '"cancel-reason":"interrupt",'
SIGNALLED = '"cancel-reason":"signal",'
NO_REASON = '"cancel-reason":null,'

STATISTICS: list[Row] = [
    (counts("", MOST_SKIPPED), counts("", MOST_SKIPPED)),
    (counts(INTERRUPTED, MOST_SKIPPED), counts(INTERRUPTED, MOST_SKIPPED)),
    (counts(NO_REASON, MOST_SKIPPED), counts("", MOST_SKIPPED)),
    ("{}", REFUSED),
    (counts("", ""), REFUSED),
    (counts("", ',"skipped":null'), REFUSED),
    (counts("", ',"skipped":1.0'), REFUSED),
    (counts("", ',"skipped":18446744073709551616'), REFUSED),
    (counts('"cancel-reason":"Signal",', ',"skipped":0'), REFUSED),
    (counts("", ',"skipped":0'), counts("", ',"skipped":0')),
]

SINGLE_RUNS = [
    (single("", ',"skipped":19'), single("", ',"skipped":19')),
    (single(SIGNALLED, ',"skipped":0'), single(SIGNALLED, ',"skipped":0')),
    (single(NO_REASON, ',"skipped":19'), single("", ',"skipped":19')),
    (single("", ""), REFUSED),
    (single("", ',"skipped":1.0'), REFUSED),
]
STRESS_END = (
    '{"completed":{"current":2},"failed-count":2,"last-final-stats":"failed","success-count":1}'
)
NO_STRESS_ENDS = [('{"completed":{"current":2},' + rest + "}", REFUSED) for rest in STRESS_COUNTS]
WHOLE_STRESS_END = (
    '{"completed":{"current":2},"success-count":1,"failed-count":2,"last-final-stats":"failed"}'
)

EACH_COUNT: list[Row] = [
    (counts_without(key, *members), REFUSED)
    for key in COUNTS
    for members in [(), (f'"{key}":null',), (f'"{key}":-1',), (f'"{key}":"1"',)]
]

CASES = [
    *(case for name, event, rows in TABLES for case in in_event(name, event, rows)),
    *in_event("statistics", SUB_STATS, STATISTICS + EACH_COUNT),
    read_of_session("statistics of all counts", SUB_STATS.replace("VALUE", counts_without(""))),
    *in_event("end of a run", RUN_STATS, SINGLE_RUNS),
    *in_event(
        "end of a stress run", STRESS_RUN_STATS, [(WHOLE_STRESS_END, STRESS_END), *NO_STRESS_ENDS]
    ),
]
