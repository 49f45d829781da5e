"""Values of tests and setup scripts in events, as they are read and as they are logged."""

from __future__ import annotations

from workshop.cases.case import SOME, Case, kept_are
from workshop.cases.events import starts_of
from workshop.cases.line_cases import (
    REFUSED,
    RUN_IDS,
    TEXTS,
    Rows,
    in_event,
    read_of_log,
    refused_in_log,
    refused_in_session,
)
from workshop.cases.made import session

# Lines as they are logged, with VALUE for what is tried.
RUNNING = (
    '{"elapsed":{"nanos":0,"secs":0},"kind":"run-paused","running":VALUE,"setup-scripts-running":0,'
    '"timestamp":{"nanos":0,"offset":0,"secs":1000}}'
)
SCRIPT_ID = (
    '{"args":[],"elapsed":{"nanos":0,"secs":0},"index":0,"kind":"setup-script-started",'
    '"no-capture":false,"program":"sh","script-id":VALUE,"timestamp":{"nanos":0,"offset":0,'
    '"secs":1000},"total":1}'
)
NO_CAPTURE = SCRIPT_ID.replace("VALUE", '"db"').replace("false", "VALUE")
PROFILE = (
    '{"cli-args":[],"elapsed":{"nanos":0,"secs":0},"kind":"run-started","profile-name":VALUE,'
    '"run-id":"550e8400-e29b-41d4-a716-446655440000","timestamp":{"nanos":0,"offset":0,'
    '"secs":1000}}'
)
RUN_ID = PROFILE.replace("VALUE", '"default"').replace(
    '"550e8400-e29b-41d4-a716-446655440000"', "VALUE"
)
CONDITION = PROFILE.replace("VALUE", '"default"').replace(
    '"timestamp"', '"stress-condition":VALUE,"timestamp"'
)
TEST_INSTANCE = (
    '{"elapsed":{"nanos":0,"secs":0},"junit-report-skipped":"none","kind":"test-skipped",'
    '"reason":"ignored","test-instance":VALUE,"timestamp":{"nanos":0,"offset":0,"secs":1000}}'
)
BINARY_ID, TEST_NAME = (
    TEST_INSTANCE.replace("VALUE", names)
    for names in (
        '{"binary-id":VALUE,"test-name":"t1"}',
        '{"binary-id":"alpha::a","test-name":VALUE}',
    )
)
SKIP = BINARY_ID.replace("VALUE", '"alpha::a"')
STRESS_INDEX = SKIP.replace('"test-instance"', '"stress-index":VALUE,"test-instance"')
REASON = SKIP.replace('"ignored"', "VALUE")
REPORTED = SKIP.replace('"none"', "VALUE")
RETRY_DATA = (
    '{"command-line":[],"elapsed":{"nanos":0,"secs":0},"kind":"test-retry-started",'
    '"retry-data":VALUE,"running":1,"slot-assignment":{"global-slot":0,"test-group":"@global"},'
    '"test-instance":{"binary-id":"alpha::a","test-name":"t1"},"timestamp":{"nanos":0,"offset":0,'
    '"secs":1000}}'
)
SLOT = RETRY_DATA.replace("VALUE", '{"attempt":2,"total-attempts":3}').replace(
    '{"global-slot":0,"test-group":"@global"}', "VALUE"
)
GROUP = SLOT.replace("VALUE", '{"global-slot":0,"test-group":VALUE}')
CANCEL = (
    '{"elapsed":{"nanos":0,"secs":0},"kind":"run-begin-cancel","reason":VALUE,"running":0,'
    '"setup-scripts-running":0,"timestamp":{"nanos":0,"offset":0,"secs":1000}}'
)

RESULT = (
    '{"delay-before-next-attempt":{"nanos":0,"secs":0},"elapsed":{"nanos":0,"secs":0},'
    '"failure-output":"never","kind":"test-attempt-failed-will-retry",'
    '"run-status":{"delay-before-start":{"nanos":0,"secs":0},"is-slow":false,'
    '"output":{"start-error":""},"result":VALUE,"retry-data":{"attempt":1,"total-attempts":2},'
    '"start-time":{"nanos":0,"offset":0,"secs":1001},"time-taken":{"nanos":0,"secs":1}},'
    '"running":0,"test-instance":{"binary-id":"alpha::a","test-name":"t1"},"timestamp":{"nanos":0,'
    '"offset":0,"secs":1000}}'
)
LEAK, TIMEOUT, FAILURE, NOT_EXECUTED = (
    RESULT.replace("VALUE", result)
    for result in (
        '{"leak":VALUE}',
        '{"timeout":VALUE}',
        '{"fail":{"failure":VALUE,"leaked":false}}',
        '"exec-fail"',
    )
)
DISPLAY = NOT_EXECUTED.replace('"failure-output":"never"', '"failure-output":VALUE')
ERROR_SUMMARY = NOT_EXECUTED.replace('"is-slow"', '"error-summary":VALUE,"is-slow"')
ERROR_SLICE = NOT_EXECUTED.replace('"result"', '"output-error-slice":VALUE,"result"')
STREAMS = NOT_EXECUTED.replace('{"start-error":""}', '{"output":{"output":VALUE}}')
OUTPUT, NAME, STORED = (
    STREAMS.replace("VALUE", streams)
    for streams in (
        '{"combined":VALUE}',
        '{"split":{"stderr":{"full":VALUE}}}',
        '{"split":{"stdout":VALUE}}',
    )
)
FLAKY_RESULT = (
    '{"current-stats":{"exec-failed":0,"failed":0,"failed-slow":0,"failed-timed-out":0,'
    '"finished-count":0,"flaky":0,"initial-run-count":1,"leaky":0,"leaky-failed":0,"passed":0,'
    '"passed-slow":0,"passed-timed-out":0,"setup-scripts-exec-failed":0,"setup-scripts-failed":0,'
    '"setup-scripts-finished-count":0,"setup-scripts-initial-count":0,"setup-scripts-passed":0,'
    '"setup-scripts-timed-out":0,"skipped":0},"elapsed":{"nanos":0,"secs":0},'
    '"failure-output":"never","junit-flaky-fail-status":"failure",'
    '"junit-store-failure-output":true,"junit-store-success-output":false,"kind":"test-finished",'
    '"run-statuses":{"flaky-result":VALUE,"statuses":[{"delay-before-start":{"nanos":0,"secs":0},'
    '"is-slow":false,"output":{"start-error":""},"result":"exec-fail","retry-data":{"attempt":1,'
    '"total-attempts":2},"start-time":{"nanos":0,"offset":0,"secs":1001},"time-taken":{"nanos":0,'
    '"secs":1}}]},"running":0,"success-output":"never","test-instance":{"binary-id":"alpha::a",'
    '"test-name":"t1"},"timestamp":{"nanos":0,"offset":0,"secs":1000}}'
)
FLAKY_STATUS = FLAKY_RESULT.replace("VALUE", '"pass"').replace('"failure",', "VALUE,")

# What is no text.
NO_TEXTS = [
    ("1", REFUSED),
    ("null", REFUSED),
    ("true", REFUSED),
    ('["a"]', REFUSED),
    ('{"a":"b"}', REFUSED),
    ("a", REFUSED),
    ('"\\udc00"', REFUSED),
]
NO_OUTPUT_BYTES = ['"0"', '"0g"', '"0x00"', '" 00"', "[]", "null"]

# Texts that a log may have in the place of VALUE, and others that it may not have.
OF_LOGS = [
    (
        "name of an output",
        NAME,
        [
            '"0000000000000001-stderr"',
            '"0123456789abcdef-stdout"',
            '"ffffffffffffffff-stderr"',
            '"0000000000000000-combined"',
        ],
        [
            '"000000000000000A-stdout"',
            '"0000000000000001"',
            "1",
            '""',
            '"-stdout"',
            '"0123456789abcdef"',
            '"0123456789abcdef-"',
            '"0123456789abcde-stdout"',
            '"0123456789abcdef0-stdout"',
            '"0123456789ABCDEF-stdout"',
            '"0123456789abcdeg-stdout"',
            '"0123456789abcdef-Stdout"',
            '"0123456789abcdef-unknown"',
            '"0123456789abcdef-stdout "',
            '"+123456789abcdef-stdout"',
            '"é23456789abcdef-stdout"',
        ],
    ),
    (
        "stored output",
        STORED,
        [
            '"empty"',
            '{"full":"0123456789abcdef-stdout"}',
            (
                '{"truncated":{"file-name":"0123456789abcdef-stdout",'
                '"original-size":18446744073709551615}}'
            ),
        ],
        [
            (
                '{"truncated":{"file-name":"0123456789abcdef-stdout",'
                '"original-size":18446744073709551616}}'
            ),
            '{"truncated":"0123456789abcdef-stdout"}',
            '"full"',
            '{"empty":null}',
        ],
    ),
    (
        "stored streams",
        STREAMS,
        [
            '{"split":{"stdout":null,"stderr":"empty","more":1}}',
            '{"split":{}}',
            '{"combined":"empty"}',
        ],
        ['{"combined":null}', '{"split":{},"combined":"empty"}', "{}", '"split"'],
    ),
]

# Values, and what they are written as once they are read.
TABLES: list[tuple[str, str, Rows]] = [
    (
        "running tests",
        RUNNING,
        [
            ("18446744073709551615", "18446744073709551615"),
            ("18446744073709551616", REFUSED),
            ("-1", REFUSED),
            ("0.0", REFUSED),
        ],
    ),
    ("truth value", NO_CAPTURE, [("true", "true"), ("false", "false"), ("0", REFUSED)]),
    ("text", PROFILE, TEXTS),
    ("binary id", BINARY_ID, [('""', '""'), ('"a::b"', '"a::b"'), *NO_TEXTS]),
    ("test name", TEST_NAME, [('"t 1"', '"t 1"'), *NO_TEXTS]),
    ("script id", SCRIPT_ID, [('"@tool:x"', '"@tool:x"'), *NO_TEXTS]),
    ("run id", RUN_ID, RUN_IDS),
    (
        "stress condition",
        CONDITION,
        [
            ('{"count":null}', '{"count":null}'),
            ('{"count":4294967295}', '{"count":4294967295}'),
            ('{"duration":{"secs":1,"nanos":2}}', '{"duration":{"nanos":2,"secs":1}}'),
            ('{"count":4294967296}', REFUSED),
            ('{"duration":null}', REFUSED),
            ('"count"', REFUSED),
            ("{}", REFUSED),
        ],
    ),
    (
        "stress index",
        STRESS_INDEX,
        [
            ('{"current":0,"total":1}', '{"current":0,"total":1}'),
            ('{"current":7}', '{"current":7}'),
            ('{"current":0,"total":0}', REFUSED),
            ('{"total":1}', REFUSED),
        ],
    ),
    (
        "test instance",
        TEST_INSTANCE,
        [
            (
                '{"test-name":"t1","binary-id":"alpha::a"}',
                '{"binary-id":"alpha::a","test-name":"t1"}',
            ),
            ('{"binary-id":"alpha::a"}', REFUSED),
            ('{"test-name":"t1"}', REFUSED),
            ('["alpha::a","t1"]', REFUSED),
        ],
    ),
    (
        "retry data",
        RETRY_DATA,
        [
            (
                '{"attempt":0,"total-attempts":4294967295}',
                '{"attempt":0,"total-attempts":4294967295}',
            ),
            ('{"attempt":1,"total-attempts":4294967296}', REFUSED),
            ('{"attempt":1.0,"total-attempts":1}', REFUSED),
        ],
    ),
    (
        "group",
        GROUP,
        [
            ('"@global"', '"@global"'),
            ('""', '""'),
            ('"serial"', '"serial"'),
            ('"global"', '"global"'),
            ('"@global "', '"@global "'),
            ('"é"', '"é"'),
            ("null", REFUSED),
            ("0", REFUSED),
            ('{"custom":"serial"}', REFUSED),
            ('["@global"]', REFUSED),
        ],
    ),
    (
        "slot",
        SLOT,
        [
            (
                '{"global-slot":0,"group-slot":null,"test-group":"@global"}',
                '{"global-slot":0,"test-group":"@global"}',
            ),
            ('{"global-slot":0,"group-slot":0}', REFUSED),
            ('{"global-slot":-1,"test-group":"@global"}', REFUSED),
        ],
    ),
    (
        "reason of a skip",
        REASON,
        [
            ('"not-benchmark"', '"not-benchmark"'),
            ('"ignored"', '"ignored"'),
            ('"string"', '"string"'),
            ('"expression"', '"expression"'),
            ('"partition"', '"partition"'),
            ('"rerun-already-passed"', '"rerun-already-passed"'),
            ('"default-filter"', '"default-filter"'),
            ('"not_benchmark"', REFUSED),
            ('"NotBenchmark"', REFUSED),
            ('"Ignored"', REFUSED),
            ('"rerun"', REFUSED),
            ('""', REFUSED),
            ('{"ignored":null}', REFUSED),
            ('["string"]', REFUSED),
            ("null", REFUSED),
            ("true", REFUSED),
            ("0", REFUSED),
        ],
    ),
    (
        "reported skips",
        REPORTED,
        [
            ('"ignored"', '"ignored"'),
            ('"all"', '"all"'),
            ('"None"', REFUSED),
            ('"ALL"', REFUSED),
            ('"string"', REFUSED),
            ('{"none":null}', REFUSED),
            ('["all"]', REFUSED),
            ("null", REFUSED),
            ("false", REFUSED),
            ("1.0", REFUSED),
        ],
    ),
    (
        "cancel reason",
        CANCEL,
        [
            ('"test-failure"', '"test-failure"'),
            ('"report-error"', '"report-error"'),
            ('"global-timeout"', '"global-timeout"'),
            ('"test-failure-immediate"', '"test-failure-immediate"'),
            ('"signal"', '"signal"'),
            ('"interrupt"', '"interrupt"'),
            ('"second-signal"', '"second-signal"'),
            ('"second_signal"', REFUSED),
            ('"Signal"', REFUSED),
            ("6", REFUSED),
        ],
    ),
    (
        "display of an output",
        DISPLAY,
        [
            ('"immediate"', '"immediate"'),
            ('"final"', '"final"'),
            ('"immediate-final"', '"immediate-final"'),
            ('"never"', '"never"'),
            ('"immediateFinal"', REFUSED),
            ('"Never"', REFUSED),
            ("null", REFUSED),
            ('{"never":null}', REFUSED),
        ],
    ),
    (
        "flaky fail status",
        FLAKY_STATUS,
        [
            ('"failure"', '"failure"'),
            ('"success"', '"success"'),
            ('"fail"', REFUSED),
            ('["success"]', REFUSED),
        ],
    ),
    (
        "flaky result",
        FLAKY_RESULT,
        [('"fail"', '"fail"'), ('"Pass"', REFUSED), ('{"pass":null}', REFUSED), ("true", REFUSED)],
    ),
    (
        "leak",
        LEAK,
        [
            ('"pass"', '"pass"'),
            ('"fail"', '"fail"'),
            ('"leak"', REFUSED),
            ('{"pass":null}', REFUSED),
            ("true", REFUSED),
        ],
    ),
    (
        "timeout",
        TIMEOUT,
        [
            ('"pass"', '"pass"'),
            ('"fail"', '"fail"'),
            ("null", REFUSED),
            ('{"pass":null}', REFUSED),
            ("true", REFUSED),
        ],
    ),
    (
        "failure",
        FAILURE,
        [
            ('{"exit-code":-2147483648}', '{"exit-code":-2147483648}'),
            ('{"abort":{"signal":6,"name":"ABRT"}}', '{"abort":{"name":"ABRT","signal":6}}'),
            ('{"abort":{"name":null,"signal":11}}', '{"abort":{"signal":11}}'),
            ('{"exit-code":-2147483649}', REFUSED),
            ('{"exit-code":1.0}', REFUSED),
            ('{"exit-code":{"code":1}}', REFUSED),
            ('{"exit_code":1}', REFUSED),
            ('"exit-code"', REFUSED),
            ('{"abort":{"name":"ABRT"}}', REFUSED),
            ('{"abort":6}', REFUSED),
            ('{"abort":{"signal":6},"exit-code":1}', REFUSED),
            ("{}", REFUSED),
        ],
    ),
    (
        "result",
        RESULT,
        [
            ('"pass"', '"pass"'),
            (
                '{"fail":{"leaked":true,"failure":{"exit-code":1}}}',
                '{"fail":{"failure":{"exit-code":1},"leaked":true}}',
            ),
            ('"Pass"', REFUSED),
            ('{"pass":null}', REFUSED),
            ('"leak"', REFUSED),
            ('{"leak":{"result":"fail"}}', REFUSED),
            ('{"leak":"pass","leak":"fail"}', '{"leak":"fail"}'),
            ('{"leak":"pass","l\\u0065ak":"pass","leak":"fail"}', '{"leak":"fail"}'),
            ('{"leak":"pass","timeout":"pass"}', REFUSED),
            ('{"leak":"pass","timeout":"pass","leak":"fail"}', REFUSED),
            ('{"leak":"pass","leak":"fail","":"pass"}', REFUSED),
            ("{}", REFUSED),
            ('{"fail":{"failure":{"exit-code":1}}}', REFUSED),
            ("null", REFUSED),
        ],
    ),
    (
        "error summary",
        ERROR_SUMMARY,
        [
            ('{"short-message":"s","description":"d"}', '{"description":"d","short-message":"s"}'),
            ('{"short-message":"s"}', REFUSED),
            ('{"short_message":"s","description":"d"}', REFUSED),
            ('{"short-message":null,"description":"d"}', REFUSED),
        ],
    ),
    (
        "slice of an output",
        ERROR_SLICE,
        [
            (
                '{"start":18446744073709551615,"slice":"é"}',
                '{"slice":"é","start":18446744073709551615}',
            ),
            ('{"start":18446744073709551616,"slice":""}', REFUSED),
            ('{"start":0.0,"slice":""}', REFUSED),
            ('{"start":-1,"slice":""}', REFUSED),
            ('{"start":0}', REFUSED),
        ],
    ),
]


def kept(text: str, content: bytes) -> Case:
    """What is captured is stored as this content."""
    event = OUTPUT.replace("VALUE", text)
    stored = kept_are([content] if content else [])
    return Case(
        f"captured bytes {text}",
        ("record", "b"),
        session(*starts_of(event), event),
        out=SOME,
        file=stored,
    )


LAST_SLOT = '{"global-slot":18446744073709551615,"group-slot":0,"test-group":"serial"}'
LAST_ROW = b"RowOutOfRange event=1 number=18446744073709551615\n"

CASES = [
    *(case for name, event, rows in TABLES for case in in_event(name, event, rows)),
    *(
        read_of_log(f"{name} {text}", event.replace("VALUE", text))
        for name, event, texts, _ in OF_LOGS
        for text in texts
    ),
    *(
        refused_in_log(f"{name} {text}", event.replace("VALUE", text))
        for name, event, _, texts in OF_LOGS
        for text in texts
    ),
    *(
        refused_in_session(f"captured bytes {text}", OUTPUT.replace("VALUE", text))
        for text in NO_OUTPUT_BYTES
    ),
    kept('""', b""),
    kept('"68690a00ff"', b"hi\n\x00\xff"),
    kept('"aBCDeF"', b"\xab\xcd\xef"),
    Case("last slot", ("record", "b"), session(SLOT.replace("VALUE", LAST_SLOT)), 9, err=LAST_ROW),
]
