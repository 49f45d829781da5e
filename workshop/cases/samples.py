"""Generated sessions: their bundles, and what is printed of them."""

from __future__ import annotations

import hashlib
import re
from collections.abc import Iterator, Sequence

from workshop.cases.case import SOME, Case, Entry, Holds, Recorded, Sampled, begins, both, ends
from workshop.cases.events import sorted_stats
from workshop.cases.made import OPTIONS, bundle, compact
from workshop.cases.texts import BUILD_SCOPE, LOGGED_RUN_START, MANIFEST, NO_SIZES, replaced
from workshop.oracle.container import container

# The head up to the suites of its test list.
SAMPLE_HEAD = (
    b'{"build-scope":'
    + BUILD_SCOPE
    + (
        b',"cargo-metadata":"{}","cli-args":[],"env-vars":{},"last-written-at":{"nanos":0,'
        b'"offset":0,"secs":1011},"nextest-version":"0.9.111","record-opts":{"run-mode":"test"},'
        b'"run-id":"550e8400-e29b-41d4-a716-446655440000","started-at":{"nanos":0,"offset":0,'
        b'"secs":1000},"status":{"status":"incomplete"},"test-list":{"suites":'
    )
)


def stats(tests: int) -> bytes:
    """The counts of a run of so many tests."""
    return compact(sorted_stats(initial_run_count=tests))


def run_end(tests: int, secs: int) -> bytes:
    """The end of a run of so many tests, at so many seconds."""
    return (
        b'{"elapsed":{"nanos":0,"secs":0},"kind":"run-finished","run-elapsed":{"nanos":0,"secs":0},'
        b'"run-id":"550e8400-e29b-41d4-a716-446655440000","run-stats":{"single":%s},'
        b'"start-time":{"nanos":0,"offset":0,"secs":1000},"timestamp":{"nanos":0,"offset":0,'
        b'"secs":%d}}\n' % (stats(tests), secs)
    )


# The start of the only test.
TEST_START = (
    b'{"command-line":[],"current-stats":%s,"elapsed":{"nanos":0,"secs":0},"kind":"test-started",'
    b'"running":1,"slot-assignment":{"global-slot":0,"test-group":"@global"},'
    b'"test-instance":{"binary-id":"bin-0","test-name":"t0"},"timestamp":{"nanos":0,"offset":0,'
    b'"secs":1000}}\n' % stats(1)
)


def test_end(stdout: bytes) -> bytes:
    """Its end. It wrote `output 0` and LF, which is held so."""
    return (
        b'{"current-stats":%s,"elapsed":{"nanos":0,"secs":0},"failure-output":"never",'
        b'"junit-flaky-fail-status":"failure","junit-store-failure-output":false,'
        b'"junit-store-success-output":false,"kind":"test-finished",'
        b'"run-statuses":{"flaky-result":"pass","statuses":[{"delay-before-start":{"nanos":0,'
        b'"secs":0},"is-slow":false,"output":{"output":{"output":{"split":{"stdout":%s}}}},'
        b'"result":"pass","retry-data":{"attempt":1,"total-attempts":1},"start-time":{"nanos":0,'
        b'"offset":0,"secs":1000},"time-taken":{"nanos":0,"secs":3}}]},"running":0,'
        b'"success-output":"never","test-instance":{"binary-id":"bin-0","test-name":"t0"},'
        b'"timestamp":{"nanos":0,"offset":0,"secs":1003}}\n' % (stats(1), stdout)
    )


NO_TESTS = SAMPLE_HEAD + b"{}}}\n" + LOGGED_RUN_START + run_end(0, 1000)
ONE_TEST = (
    SAMPLE_HEAD
    + b'{"bin-0":["t0"]}}}\n'
    + LOGGED_RUN_START
    + TEST_START
    + test_end(b'"6f757470757420300a"')
    + run_end(1, 1004)
)
OUTPUT = b"output 0\n"
OUTPUT_NAME = hashlib.sha256(OUTPUT).hexdigest()[:16].encode() + b"-stdout"


def bundle_of(log: bytes, events: int, suites: bytes, outputs: Sequence[Entry]) -> bytes:
    """The bundle of a log of so many events, of these suites and outputs."""
    contents = [
        (b"meta/build-scope.json", BUILD_SCOPE),
        (b"meta/test-list.json", b'{"suites":%s}' % suites),
        (b"meta/cargo-metadata.json", b"{}"),
        (b"meta/record-opts.json", OPTIONS),
        *outputs,
    ]
    store = container(contents)
    sizes = (
        b'"sizes":{"log":{"compressed":%d,"entries":%d,"uncompressed":%d},"store":{"compressed":%d,'
        b'"entries":%d,"uncompressed":%d}}'
        % (
            len(log),
            events,
            len(log),
            len(store),
            len(contents),
            sum(len(content) for _, content in contents),
        )
    )
    return bundle(log, store, replaced(MANIFEST, NO_SIZES, sizes))


BUNDLE_OF_NONE = bundle_of(LOGGED_RUN_START + run_end(0, 1000), 2, b"{}", ())
LOG_OF_ONE = (
    LOGGED_RUN_START + TEST_START + test_end(b'{"full":"%s"}' % OUTPUT_NAME) + run_end(1, 1004)
)
BUNDLE_OF_ONE = bundle_of(LOG_OF_ONE, 4, b'{"bin-0":["t0"]}', [(b"out/" + OUTPUT_NAME, OUTPUT)])


def within(name: str, tests: str, session: bytes, counts: bytes, file: bytes) -> Iterator[Case]:
    """A session that is just short enough for a limit, and one that is a byte too long."""
    yield Case(
        name, ("sample", tests, "b", "--session-limit", str(len(session))), out=counts, file=file
    )
    limit = str(len(session) - 1)
    yield Case(
        f"{name}, and a byte too long",
        ("sample", tests, "b", "--session-limit", limit),
        status=4,
        err=b"SessionTooLarge limit=%s\n" % limit.encode(),
    )


ONE_REPLAYED = b"""\
header 550e8400-e29b-41d4-a716-446655440000 incomplete
1000.000000000 run-started
1000.000000000 test-started bin-0 t0
1003.000000000 test-finished bin-0 t0 stdout=9 stderr=-
1004.000000000 run-finished
"""

ONE_WITHOUT_OUTPUTS = replaced(ONE_REPLAYED, b"stdout=9 stderr=-", b"not-loaded")


def case(test: int) -> bytes:
    """The case of this test among eight, each on a slot of its own."""
    return (
        b'{"classname":"bin-%d","name":"t%d","status":{"success":[]},"time":{"nanos":0,"secs":3},'
        b'"timestamp":{"nanos":%d,"offset":0,"secs":1000}}' % (test % 4, test, test * 1000)
    )


def suite(binary: int) -> bytes:
    """The suite of two tests of this binary."""
    return b'{"cases":[%s,%s],"name":"bin-%d","properties":[]}' % (
        case(binary),
        case(binary + 4),
        binary,
    )


EIGHT_REPORTED = (
    b'{"name":"nextest-run","run-id":"550e8400-e29b-41d4-a716-446655440000","suites":[%s,%s,%s,%s],'
    b'"time":{"nanos":0,"secs":0},"timestamp":{"nanos":0,"offset":0,"secs":1000}}\n'
    % (suite(0), suite(1), suite(2), suite(3))
)


def named(*names: bytes) -> Holds:
    """A line of JSON with these names, in this order: in an object the cases of a suite stand
    before its name.
    """

    def test(data: bytes) -> bool:
        return (
            data.count(b"\n") == 1
            and data.endswith(b"\n")
            and re.findall(rb'"name":"([^"]*)"', data) == list(names)
        )

    return Holds(f"a line with the names {names}", test)


CASES = [
    *within("no tests", "0", NO_TESTS, b"events=2 outputs=0\n", BUNDLE_OF_NONE),
    *within("one test", "1", ONE_TEST, b"events=4 outputs=1\n", BUNDLE_OF_ONE),
    Case("the session of one test, recorded", ("replay",), Recorded(ONE_TEST), out=ONE_REPLAYED),
    Case("eighty tests", ("sample", "80", "b"), out=b"events=164 outputs=16\n", file=SOME),
    Case(
        "eighty tests, after zeros",
        ("sample", "00080", "b"),
        out=b"events=164 outputs=16\n",
        file=SOME,
    ),
    Case(
        "the longest session",
        ("sample", "10000", "b", "--session-limit", "39999999"),
        out=begins(b"events=20252 outputs="),
        file=SOME,
    ),
    Case("one test is replayed", ("replay",), Sampled(1), out=ONE_REPLAYED),
    Case(
        "one test is replayed without outputs",
        ("replay", "--output", "skip"),
        Sampled(1),
        out=ONE_WITHOUT_OUTPUTS,
    ),
    Case("eight tests are reported", ("report",), Sampled(8), out=EIGHT_REPORTED),
    Case("no tests, by the counts", ("sample", "0", "b"), out=b"events=2 outputs=0\n", file=SOME),
    Case("one test, by the counts", ("sample", "1", "b"), out=b"events=4 outputs=1\n", file=SOME),
    Case("the most tests", ("sample", "10000", "b"), out=b"events=20252 outputs=16\n", file=SOME),
    Case("replay with outputs", ("replay", "--output", "load"), Sampled(1), out=ONE_REPLAYED),
    Case(
        "the names in a report of eight tests",
        ("report",),
        Sampled(8),
        out=named(
            b"nextest-run",
            b"t0",
            b"t4",
            b"bin-0",
            b"t1",
            b"t5",
            b"bin-1",
            b"t2",
            b"t6",
            b"bin-2",
            b"t3",
            b"t7",
            b"bin-3",
        ),
    ),
    Case(
        "a session past the limit",
        ("sample", "0", "b", "--session-limit", "10"),
        status=4,
        err=b"SessionTooLarge limit=10\n",
    ),
    Case(
        "a manifest past the limit",
        ("sample", "0", "b", "--read-limit", "10"),
        status=7,
        err=both(begins(b"FileTooLarge file_name=manifest.json size="), ends(b" limit=10\n")),
    ),
]
