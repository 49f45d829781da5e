"""What `record` writes: a bundle byte by byte, the outputs and the metadata in its store, and the
limits of all.
"""

from __future__ import annotations

from collections.abc import Sequence

from workshop.cases.case import (
    ANY,
    SOME,
    Case,
    Entry,
    Holds,
    Recorded,
    Wanted,
    both,
    entry_is,
    has,
    kept_are,
    lacks,
    of_length,
    outputs,
)
from workshop.cases.events import (
    captured,
    course,
    script_ended,
    script_members,
    script_started,
    starts_of,
)
from workshop.cases.line_cases import RUN_LOG, written
from workshop.cases.made import (
    BENCHMARK,
    INCOMPLETE,
    Members,
    compact,
    duration,
    instant,
    line,
    log_of,
    session,
)
from workshop.cases.texts import (
    BUILD_SCOPE,
    HEAD,
    HEADER,
    LOGGED_PAUSE,
    LOG_LINES,
    MANIFEST,
    METADATA,
    NO_SIZES,
    RUN_ID,
    RUN_PAUSED,
    RUN_STARTED,
    SMALL_SESSION,
    TEST_STARTED,
    finished,
    replaced,
    session_of,
)
from workshop.cases.whole_bundles import whole
from workshop.oracle.container import container, entries

# The bundles of a head alone and of a run with one test, whose manifest has these sizes.
SIZES = (
    b'"sizes":{"log":{"compressed":1915,"entries":3,"uncompressed":1915},"store":{"compressed":556,'
    b'"entries":5,"uncompressed":380}}'
)
HEAD_ALONE = container(
    [(b"manifest.json", MANIFEST), (b"run.log.zst", b""), (b"store.zip", container(METADATA))]
)

ONE_TEST_RECORDED = container(
    [
        (b"manifest.json", replaced(MANIFEST, NO_SIZES, SIZES)),
        (b"run.log.zst", log_of(*LOG_LINES)),
        (b"store.zip", container([*METADATA, (b"out/ba7816bf8f01cfea-stdout", b"abc")])),
    ]
)

# Outputs.

# A finished test, up to its output, and after it; and as it is logged.
BEFORE_OUTPUT = (
    '{"timestamp":{"secs":0,"nanos":0,"offset":0},"elapsed":{"secs":0,"nanos":0},'
    '"kind":"test-finished","test-instance":{"binary-id":"b","test-name":"t"},'
    '"success-output":"never","failure-output":"never","junit-store-success-output":false,'
    '"junit-store-failure-output":false,"junit-flaky-fail-status":"failure","running":0,'
    '"current-stats":{"initial-run-count":0,"finished-count":0,"setup-scripts-initial-count":0,'
    '"setup-scripts-finished-count":0,"setup-scripts-passed":0,"setup-scripts-failed":0,'
    '"setup-scripts-exec-failed":0,"setup-scripts-timed-out":0,"passed":0,"passed-slow":0,'
    '"passed-timed-out":0,"flaky":0,"failed":0,"failed-slow":0,"failed-timed-out":0,"leaky":0,'
    '"leaky-failed":0,"exec-failed":0,"skipped":0},"run-statuses":{"flaky-result":"pass",'
    '"statuses":[{"retry-data":{"attempt":1,"total-attempts":1},"result":"pass",'
    '"start-time":{"secs":0,"nanos":0,"offset":0},"time-taken":{"secs":0,"nanos":0},'
    '"is-slow":false,"delay-before-start":{"secs":0,"nanos":0},"output":'
)
AFTER_OUTPUT = "}]}}"

BEFORE_STORED = (
    '{"current-stats":{"exec-failed":0,"failed":0,"failed-slow":0,"failed-timed-out":0,'
    '"finished-count":0,"flaky":0,"initial-run-count":0,"leaky":0,"leaky-failed":0,"passed":0,'
    '"passed-slow":0,"passed-timed-out":0,"setup-scripts-exec-failed":0,"setup-scripts-failed":0,'
    '"setup-scripts-finished-count":0,"setup-scripts-initial-count":0,"setup-scripts-passed":0,'
    '"setup-scripts-timed-out":0,"skipped":0},"elapsed":{"nanos":0,"secs":0},'
    '"failure-output":"never","junit-flaky-fail-status":"failure",'
    '"junit-store-failure-output":false,"junit-store-success-output":false,"kind":"test-finished",'
    '"run-statuses":{"flaky-result":"pass","statuses":[{"delay-before-start":{"nanos":0,"secs":0},'
    '"is-slow":false,"output":'
)

AFTER_STORED = (
    ',"result":"pass","retry-data":{"attempt":1,"total-attempts":1},"start-time":{"nanos":0,'
    '"offset":0,"secs":0},"time-taken":{"nanos":0,"secs":0}}]},"running":0,'
    '"success-output":"never","test-instance":{"binary-id":"b","test-name":"t"},'
    '"timestamp":{"nanos":0,"offset":0,"secs":0}}'
)

# A setup script wrote `abc`.
SCRIPT = (
    '{"timestamp":{"secs":1000,"nanos":0,"offset":0},"elapsed":{"secs":0,"nanos":0},'
    '"kind":"setup-script-finished","index":0,"total":1,"script-id":"db","program":"./db.sh",'
    '"args":["up"],"no-capture":false,"run-status":{"output":{"output":{"output":{"split":{'
    '"stdout":"616263"}}}},"result":"pass","start-time":{"secs":1000,"nanos":0,"offset":0},'
    '"time-taken":{"secs":1,"nanos":0},"is-slow":false,"env-map":{"DB_URL":"db:1"}}}'
)

SCRIPT_LINE = (
    '{"args":["up"],"elapsed":{"nanos":0,"secs":0},"index":0,"kind":"setup-script-finished",'
    '"no-capture":false,"program":"./db.sh","run-status":{"env-map":{"DB_URL":"db:1"},'
    '"is-slow":false,"output":{"output":{"output":{"split":{"stdout":{"full":"ba7816bf8f01cfea-'
    'stdout"}}}}},"result":"pass","start-time":{"nanos":0,"offset":0,"secs":1000},'
    '"time-taken":{"nanos":0,"secs":1}},"script-id":"db","timestamp":{"nanos":0,"offset":0,'
    '"secs":1000},"total":1}'
)

# An attempt failed and wrote `hello`.
FAILED = (
    '{"timestamp":{"secs":1001,"nanos":0,"offset":0},"elapsed":{"secs":1,"nanos":0},'
    '"kind":"test-attempt-failed-will-retry","test-instance":{"binary-id":"b","test-name":"t"},'
    '"run-status":{"retry-data":{"attempt":1,"total-attempts":3},'
    '"output":{"output":{"output":{"combined":"68656c6c6f"}}},'
    '"result":{"fail":{"failure":{"exit-code":1},"leaked":false}},"start-time":{"secs":1001,'
    '"nanos":0,"offset":0},"time-taken":{"secs":1,"nanos":0},"is-slow":false,'
    '"delay-before-start":{"secs":0,"nanos":0}},"delay-before-next-attempt":{"secs":2,"nanos":0},'
    '"failure-output":"never","running":1}'
)

FAILED_LINE = (
    '{"delay-before-next-attempt":{"nanos":0,"secs":2},"elapsed":{"nanos":0,"secs":1},'
    '"failure-output":"never","kind":"test-attempt-failed-will-retry",'
    '"run-status":{"delay-before-start":{"nanos":0,"secs":0},"is-slow":false,'
    '"output":{"output":{"output":{"combined":{"full":"2cf24dba5fb0a30e-combined"}}}},'
    '"result":{"fail":{"failure":{"exit-code":1},"leaked":false}},"retry-data":{"attempt":1,'
    '"total-attempts":3},"start-time":{"nanos":0,"offset":0,"secs":1001},"time-taken":{"nanos":0,'
    '"secs":1}},"running":1,"test-instance":{"binary-id":"b","test-name":"t"},'
    '"timestamp":{"nanos":0,"offset":0,"secs":1001}}'
)

# A test passed at its last attempt. It wrote `abc`, and then `world`.
TWO_ATTEMPTS = (
    '{"timestamp":{"secs":1004,"nanos":0,"offset":0},"elapsed":{"secs":4,"nanos":0},'
    '"kind":"test-finished","test-instance":{"binary-id":"b","test-name":"t"},'
    '"success-output":"never","failure-output":"never","junit-store-success-output":false,'
    '"junit-store-failure-output":false,"junit-flaky-fail-status":"failure",'
    '"run-statuses":{"statuses":[{"retry-data":{"attempt":2,"total-attempts":3},'
    '"output":{"output":{"output":{"split":{"stdout":"616263"}}}},"result":"exec-fail",'
    '"start-time":{"secs":1002,"nanos":0,"offset":0},"time-taken":{"secs":1,"nanos":0},'
    '"is-slow":false,"delay-before-start":{"secs":2,"nanos":0}},{"retry-data":{"attempt":3,'
    '"total-attempts":3},"output":{"output":{"output":{"split":{"stdout":"776f726c64"}}}},'
    '"result":"pass","start-time":{"secs":1003,"nanos":0,"offset":0},"time-taken":{"secs":0,'
    '"nanos":5},"is-slow":true,"delay-before-start":{"secs":0,"nanos":7}}],"flaky-result":"pass"},'
    '"current-stats":{"initial-run-count":0,"finished-count":0,"setup-scripts-initial-count":0,'
    '"setup-scripts-finished-count":0,"setup-scripts-passed":0,"setup-scripts-failed":0,'
    '"setup-scripts-exec-failed":0,"setup-scripts-timed-out":0,"passed":0,"passed-slow":0,'
    '"passed-timed-out":0,"flaky":0,"failed":0,"failed-slow":0,"failed-timed-out":0,"leaky":0,'
    '"leaky-failed":0,"exec-failed":0,"skipped":0},"running":0}'
)

TWO_ATTEMPTS_LINE = (
    '{"current-stats":{"exec-failed":0,"failed":0,"failed-slow":0,"failed-timed-out":0,'
    '"finished-count":0,"flaky":0,"initial-run-count":0,"leaky":0,"leaky-failed":0,"passed":0,'
    '"passed-slow":0,"passed-timed-out":0,"setup-scripts-exec-failed":0,"setup-scripts-failed":0,'
    '"setup-scripts-finished-count":0,"setup-scripts-initial-count":0,"setup-scripts-passed":0,'
    '"setup-scripts-timed-out":0,"skipped":0},"elapsed":{"nanos":0,"secs":4},'
    '"failure-output":"never","junit-flaky-fail-status":"failure",'
    '"junit-store-failure-output":false,"junit-store-success-output":false,"kind":"test-finished",'
    '"run-statuses":{"flaky-result":"pass","statuses":[{"delay-before-start":{"nanos":0,"secs":2},'
    '"is-slow":false,"output":{"output":{"output":{"split":{"stdout":{"full":"ba7816bf8f01cfea-'
    'stdout"}}}}},"result":"exec-fail","retry-data":{"attempt":2,"total-attempts":3},'
    '"start-time":{"nanos":0,"offset":0,"secs":1002},"time-taken":{"nanos":0,"secs":1}},'
    '{"delay-before-start":{"nanos":7,"secs":0},"is-slow":true,'
    '"output":{"output":{"output":{"split":{"stdout":{"full":"486ea46224d1bb4f-stdout"}}}}},'
    '"result":"pass","retry-data":{"attempt":3,"total-attempts":3},"start-time":{"nanos":0,'
    '"offset":0,"secs":1003},"time-taken":{"nanos":5,"secs":0}}]},"running":0,'
    '"success-output":"never","test-instance":{"binary-id":"b","test-name":"t"},'
    '"timestamp":{"nanos":0,"offset":0,"secs":1004}}'
)
ABC = '{"output":{"output":{"split":{"stdout":"616263"}}}}'
ABC_LOGGED = '{"output":{"output":{"split":{"stdout":{"full":"ba7816bf8f01cfea-stdout"}}}}}'
ABC_CUT_LOGGED = (
    '{"output":{"output":{"split":{"stdout":{"truncated":{"file-name":"f324c488732c58a3-stdout",'
    '"original-size":3}}}}}}'
)
ABC_AS_STDERR = '{"output":{"output":{"split":{"stdout":"","stderr":"616263"}}}}'
ABC_AS_STDERR_LOGGED = (
    '{"output":{"output":{"split":{"stderr":{"full":"ba7816bf8f01cfea-stderr"},"stdout":"empty"}}}}'
)
ABCD = '{"output":{"output":{"split":{"stdout":"61626364"}}}}'
ABCD_CUT_LOGGED = (
    '{"output":{"output":{"split":{"stdout":{"truncated":{"file-name":"f324c488732c58a3-stdout",'
    '"original-size":4}}}}}}'
)

# Outputs, limits, and what is kept of them.
CUTS: list[tuple[bytes, int, list[bytes]]] = [
    (b"", 0, []),
    (b"abcdef", 6, [b"abcdef"]),
    (b"hello world", 100, [b"hello world"]),
    (b"a" * 1000, 100, [b"a" * 33 + b"\n\n... [truncated 900 bytes] ...\n\n" + b"a" * 34]),
    (
        b"a" * 60 + b"b" * 80 + b"c" * 60,
        100,
        [b"a" * 33 + b"\n\n... [truncated 100 bytes] ...\n\n" + b"c" * 34],
    ),
    (
        bytes(range(200)),
        100,
        [bytes(range(33)) + b"\n\n... [truncated 100 bytes] ...\n\n" + bytes(range(166, 200))],
    ),
    (b"x" * 50, 0, [b"\n\n... [truncated 50 bytes] ...\n\n"]),
    (b"x" * 60, 10, [b"\n\n... [truncated 50 bytes] ...\n\n"]),
    (b"a", 0, [b"\n\n... [truncated 1 bytes] ...\n\n"]),
]
MARKER = b"\n\n... [truncated 1 bytes] ...\n\n"

# Limits, the outputs of tests that finish in turn, what is logged of these, and what is stored.
FINISHED = [
    (2, [ABC], [ABC_CUT_LOGGED], [(b"out/f324c488732c58a3-stdout", MARKER)]),
    (
        3,
        [ABC, ABCD],
        [ABC_LOGGED, ABCD_CUT_LOGGED],
        [(b"out/ba7816bf8f01cfea-stdout", b"abc"), (b"out/f324c488732c58a3-stdout", MARKER)],
    ),
    (
        100,
        [ABC, ABC, ABC_AS_STDERR],
        [ABC_LOGGED, ABC_LOGGED, ABC_AS_STDERR_LOGGED],
        [(b"out/ba7816bf8f01cfea-stdout", b"abc"), (b"out/ba7816bf8f01cfea-stderr", b"abc")],
    ),
]

STORED_OF_ALL_KINDS = [
    (b"out/ba7816bf8f01cfea-stdout", b"abc"),
    (b"out/2cf24dba5fb0a30e-combined", b"hello"),
    (b"out/486ea46224d1bb4f-stdout", b"world"),
]

# The metadata of a rerun.

# A head with all metadata, and the entries of its store. Each default is written, and the suites
# are sorted.
RERUN_HEAD = (
    '{"run-id":"550e8400-e29b-41d4-a716-446655440000","nextest-version":"0.9.111",'
    '"started-at":{"secs":1000,"nanos":0,"offset":0},"last-written-at":{"secs":1011,"nanos":0,'
    '"offset":0},'
    '"status":{"status":"incomplete"},"cargo-metadata":"{}","test-list":{"suites":{"b":["t2","t1"],'
    '"a":[]}},'
    '"record-opts":{"run-mode":"benchmark"},"build-scope":{"build-kind":"cargo","scope":{}},'
    '"rerun-info":{"parent-run-id":"550e8400-e29b-41d4-a716-446655440000",'
    '"root-info":{"build-scope":{"build-kind":"cargo","scope":{}},'
    '"run-id":"550e8400-e29b-41d4-a716-446655440000"},'
    '"test-suites":[]}'
    "}"
)

RERUN_INFO = (
    b'{"parent-run-id":"550e8400-e29b-41d4-a716-446655440000","root-info":{"build-scope":%s,'
    b'"run-id":"550e8400-e29b-41d4-a716-446655440000"},"test-suites":[]}' % BUILD_SCOPE
)
RERUN_METADATA = [
    (b"meta/build-scope.json", BUILD_SCOPE),
    (b"meta/rerun-info.json", RERUN_INFO),
    (b"meta/test-list.json", b'{"suites":{"a":[],"b":["t2","t1"]}}'),
    (b"meta/cargo-metadata.json", b"{}"),
    (b"meta/record-opts.json", BENCHMARK),
]

# A session of a rerun with one setup script that wrote `abc`, its store, and what is replayed of
# it.
SCOPE = {"build-kind": "cargo", "scope": {}}
RERUN = {
    "parent-run-id": RUN_ID,
    "root-info": {"build-scope": SCOPE, "run-id": RUN_ID},
    "test-suites": [],
}
BENCHMARK_HEAD = {
    "run-id": RUN_ID,
    "nextest-version": "0.9.111",
    "started-at": instant(1000),
    "last-written-at": instant(1011),
    "status": INCOMPLETE,
    "cargo-metadata": '{"packages":[]}',
    "test-list": {"suites": {"a": [], "b": ["t1", "t2"]}},
    "record-opts": {"run-mode": "benchmark"},
    "build-scope": SCOPE,
    "rerun-info": RERUN,
}
DB = script_members(program="./db.sh", args=["up"])
RAN: Members = {
    **course(captured({"split": {"stdout": "616263"}}), "pass", instant(1000), duration(1)),
    "env-map": {"DB_URL": "db:1"},
}
RERUN_SESSION = b"\n".join(
    (
        compact(BENCHMARK_HEAD),
        line(script_started(DB), instant(1000), elapsed=0),
        line(script_ended(RAN, DB), instant(1000), elapsed=0),
    )
)
RERUN_STORE = container(
    [
        (b"meta/build-scope.json", BUILD_SCOPE),
        (b"meta/rerun-info.json", RERUN_INFO),
        (b"meta/test-list.json", b'{"suites":{"a":[],"b":["t1","t2"]}}'),
        (b"meta/cargo-metadata.json", b'{"packages":[]}'),
        (b"meta/record-opts.json", BENCHMARK),
        (b"out/ba7816bf8f01cfea-stdout", b"abc"),
    ]
)
RERUN_REPLAYED = HEADER + (
    b"1000.000000000 setup-script-started db\n1000.000000000 setup-script-finished db stdout=3 "
    b"stderr=-\n"
)

# Limits.

ONE_TEST = session_of(RUN_STARTED, TEST_STARTED, finished())

# An output of 4000 bytes, longer than the log.
LARGE_OUTPUT = session_of(TEST_STARTED, finished(b'{"split":{"stdout":"' + b"61" * 4000 + b'"}}'))

# Two outputs of 4000 and 5000 bytes.
TWO_LARGE_OUTPUTS = session_of(
    TEST_STARTED,
    finished(b'{"split":{"stdout":"' + b"61" * 4000 + b'","stderr":"' + b"62" * 5000 + b'"}}'),
)
ABC_WHOLE = has(b'"stdout":{"full":"ba7816bf8f01cfea-stdout"}')
ABC_NOT_WHOLE = lacks(b'"stdout":{"full":"ba7816bf8f01cfea-stdout"}')
ABC_CUT = has(b'"original-size":3')
ABC_NOT_CUT = lacks(b'"original-size":3')


def ended(output: str) -> str:
    return BEFORE_OUTPUT + output + AFTER_OUTPUT


def logged(output: str) -> str:
    return BEFORE_STORED + output + AFTER_STORED


def outputs_are(wanted: list[Entry]) -> Holds:
    return Holds(f"a bundle with the outputs {wanted}", lambda data: outputs(data) == wanted)


def store_is(wanted: list[Entry]) -> Holds:
    return Holds(
        f"a bundle with the store {wanted}",
        lambda data: list(entries(entries(data)[b"store.zip"]).items()) == wanted,
    )


def recorded(
    name: str, limit: int, events: Sequence[str], lines: Sequence[str], stored: list[Entry]
) -> Case:
    """Events, each after what has to start before it, make the bundle of these lines and of these
    outputs.
    """
    starts = [starts_of(event) for event in events]
    given = [line for before, event in zip(starts, events) for line in [*before, event]]
    log = log_of(*(line for before, event in zip(starts, lines) for line in [*before, event]))
    return Case(
        name,
        ("record", "b", "--max-output", str(limit)),
        session(*given),
        out=SOME,
        file=whole(log, stored),
    )


def cut(output: bytes, limit: int, kept: list[bytes]) -> Case:
    event = ended('{"output":{"output":{"combined":"%s"}}}' % output.hex())
    words = ("record", "b", "--max-output", str(limit))
    name = f"{len(output)} bytes from {output[:10]!r}, limit {limit}"
    return Case(name, words, session(*starts_of(event), event), out=SOME, file=kept_are(kept))


def limited(session: bytes, options: str, status: int = 0, line: bytes = b"") -> Case:
    """A case of a session under these options."""
    out: Wanted = b"" if status else SOME
    file = None if status else SOME
    return Case(
        f"{options} of {len(session)} bytes",
        ("record", "b", *options.split(" ")),
        session,
        status,
        out,
        line,
        file,
    )


def head_limited(limit: str) -> Case:
    """A case of a head under this session limit: the manifest counts neither events nor outputs."""
    words = (
        "record",
        "b",
        "--max-output",
        "0",
        "--read-limit",
        "18446744073709551615",
        "--session-limit",
        limit,
    )
    return Case(
        f"a head under {limit}", words, HEAD, out=SOME, file=entry_is(b"manifest.json", MANIFEST)
    )


def output_limited(limit: str, log: Wanted) -> Case:
    """A case of an output of three bytes under this limit, and what holds of the log."""
    words, session = ("record", "b", "--max-output", limit), session_of(TEST_STARTED, finished())
    return Case(
        f"an output under {limit}", words, session, out=SOME, file=entry_is(b"run.log.zst", log)
    )


PAUSED_LINE = LOGGED_PAUSE.decode().rstrip()
STARTED_SIZES = has(b'"sizes":{"log":{"compressed":188,"entries":1,"uncompressed":188}')

METADATA_SIZES = has(
    b'"sizes":{"log":{"compressed":0,"entries":0,"uncompressed":0},'
    b'"store":{"compressed":1066,"entries":5,"uncompressed":897}}'
)
WHOLE = both(
    store_is(RERUN_METADATA),
    both(entry_is(b"manifest.json", METADATA_SIZES), entry_is(RUN_LOG, b"")),
)

CASES = [
    Case("a head alone", ("record", "b"), HEAD, out=SOME, file=HEAD_ALONE),
    Case(
        "one test",
        ("record", "b"),
        SMALL_SESSION,
        out=SOME,
        file=both(of_length(3014), ONE_TEST_RECORDED),
    ),
    written("pause", RUN_PAUSED.decode(), PAUSED_LINE),
    Case(
        "sizes of a log",
        ("record", "b"),
        session(RUN_STARTED),
        out=SOME,
        file=entry_is(b"manifest.json", STARTED_SIZES),
    ),
    recorded("pause without outputs", 10, [RUN_PAUSED.decode()], [PAUSED_LINE], []),
    *(
        recorded(
            f"outputs with the limit {limit}",
            limit,
            [*map(ended, given)],
            [*map(logged, lines)],
            stored,
        )
        for limit, given, lines, stored in FINISHED
    ),
    recorded(
        "outputs of all kinds",
        100,
        [SCRIPT, FAILED, TWO_ATTEMPTS],
        [SCRIPT_LINE, FAILED_LINE, TWO_ATTEMPTS_LINE],
        STORED_OF_ALL_KINDS,
    ),
    *(cut(*row) for row in CUTS),
    Case("metadata", ("record", "b"), session(head=RERUN_HEAD.encode()), out=SOME, file=WHOLE),
    limited(HEAD, "--session-limit 341"),
    limited(HEAD, "--session-limit 340", 4, b"SessionTooLarge limit=340\n"),
    limited(HEAD, "--session-limit 0", 4, b"SessionTooLarge limit=0\n"),
    limited(HEAD, "--session-limit 18446744073709551615"),
    limited(HEAD, "--read-limit 462"),
    limited(
        HEAD, "--read-limit 461", 7, b"FileTooLarge file_name=manifest.json size=462 limit=461\n"
    ),
    limited(HEAD, "--read-limit 0", 7, b"FileTooLarge file_name=manifest.json size=462 limit=0\n"),
    limited(ONE_TEST, "--read-limit 1915"),
    limited(
        ONE_TEST,
        "--read-limit 1914",
        7,
        b"FileTooLarge file_name=run.log.zst size=1915 limit=1914\n",
    ),
    limited(LARGE_OUTPUT, "--read-limit 4000"),
    limited(
        LARGE_OUTPUT,
        "--read-limit 3999",
        7,
        b"FileTooLarge file_name=out/82396ec9191a2292-stdout size=4000 limit=3999\n",
    ),
    limited(LARGE_OUTPUT, "--max-output 3999 --read-limit 3999"),
    limited(
        TWO_LARGE_OUTPUTS,
        "--read-limit 3999",
        7,
        b"FileTooLarge file_name=out/82396ec9191a2292-stdout size=4000 limit=3999\n",
    ),
    limited(
        TWO_LARGE_OUTPUTS,
        "--read-limit 4000",
        7,
        b"FileTooLarge file_name=out/5026f8e8d3aade59-stderr size=5000 limit=4000\n",
    ),
    limited(
        session_of(RUN_STARTED, RUN_STARTED),
        "--read-limit 400",
        7,
        b"FileTooLarge file_name=manifest.json size=466 limit=400\n",
    ),
    output_limited("3", both(ABC_WHOLE, ABC_NOT_CUT)),
    output_limited("2", both(ABC_NOT_WHOLE, ABC_CUT)),
    output_limited("0", both(ABC_NOT_WHOLE, ABC_CUT)),
    head_limited("341"),
    head_limited("18446744073709551615"),
    limited(
        HEAD,
        "--max-output 0 --read-limit 18446744073709551615 --session-limit 2",
        4,
        b"SessionTooLarge limit=2\n",
    ),
    Case(
        "the store of a rerun",
        ("record", "b"),
        RERUN_SESSION,
        out=ANY,
        file=entry_is(b"store.zip", RERUN_STORE),
    ),
    Case("the outputs of a rerun", ("replay",), Recorded(RERUN_SESSION), out=RERUN_REPLAYED),
]
