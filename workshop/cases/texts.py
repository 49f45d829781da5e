"""Typed texts of small runs: heads and lines of sessions, logs, metadata, manifests, and what is
printed of them.
"""

from __future__ import annotations

from typing import AnyStr

RUN_ID = "550e8400-e29b-41d4-a716-446655440000"

HEAD = (
    b'{"run-id":"550e8400-e29b-41d4-a716-446655440000","nextest-version":"0.9.111",'
    b'"started-at":{"secs":1000,"nanos":0,"offset":0},"last-written-at":{"secs":1011,"nanos":0,'
    b'"offset":0},"status":{"status":"incomplete"},"cargo-metadata":"{}","test-list":{"suites":{}},'
    b'"record-opts":{"run-mode":"test"},"build-scope":{"build-kind":"cargo","scope":{}}}'
)

BAD_HEAD = (
    b'{"run-id":1,"nextest-version":"0.9.111","started-at":{"secs":1000,"nanos":0,"offset":0},'
    b'"last-written-at":{"secs":1011,"nanos":0,"offset":0},"status":{"status":"incomplete"},'
    b'"cargo-metadata":"{}","test-list":{"suites":{}},"record-opts":{"run-mode":"test"},'
    b'"build-scope":{"build-kind":"cargo","scope":{}}}'
)

RUN_STARTED = (
    b'{"timestamp":{"secs":1000,"nanos":0,"offset":0},"elapsed":{"secs":0,"nanos":0},'
    b'"kind":"run-started","run-id":"550e8400-e29b-41d4-a716-446655440000",'
    b'"profile-name":"default","cli-args":[]}'
)

TEST_STARTED = (
    b'{"timestamp":{"secs":1001,"nanos":0,"offset":0},"elapsed":{"secs":1,"nanos":0},'
    b'"kind":"test-started","test-instance":{"binary-id":"alpha::a","test-name":"t1"},'
    b'"slot-assignment":{"global-slot":0,"test-group":"@global"},'
    b'"current-stats":{"initial-run-count":1,"finished-count":0,"setup-scripts-initial-count":0,'
    b'"setup-scripts-finished-count":0,"setup-scripts-passed":0,"setup-scripts-failed":0,'
    b'"setup-scripts-exec-failed":0,"setup-scripts-timed-out":0,"passed":0,"passed-slow":0,'
    b'"passed-timed-out":0,"flaky":0,"failed":0,"failed-slow":0,"failed-timed-out":0,"leaky":0,'
    b'"leaky-failed":0,"exec-failed":0,"skipped":0},"running":1,"command-line":[]}'
)

RUN_PAUSED = (
    b'{"timestamp":{"secs":1002,"nanos":0,"offset":0},"elapsed":{"secs":2,"nanos":0},'
    b'"kind":"run-paused","setup-scripts-running":0,"running":1}'
)

# A finished test, before its outputs and after them.
BEFORE_OUTPUTS = (
    b'{"timestamp":{"secs":1002,"nanos":0,"offset":0},"elapsed":{"secs":2,"nanos":0},'
    b'"kind":"test-finished","test-instance":{"binary-id":"alpha::a","test-name":"t1"},'
    b'"success-output":"never","failure-output":"immediate","junit-store-success-output":false,'
    b'"junit-store-failure-output":true,"junit-flaky-fail-status":"failure",'
    b'"run-statuses":{"statuses":[{"retry-data":{"attempt":1,"total-attempts":1},'
    b'"output":{"output":{"output":'
)

AFTER_OUTPUTS = (
    b'}},"result":"pass","start-time":{"secs":1001,"nanos":0,"offset":0},"time-taken":{"secs":1,'
    b'"nanos":0},"is-slow":false,"delay-before-start":{"secs":0,"nanos":0}}],'
    b'"flaky-result":"pass"},"current-stats":{"initial-run-count":1,"finished-count":1,'
    b'"setup-scripts-initial-count":0,"setup-scripts-finished-count":0,"setup-scripts-passed":0,'
    b'"setup-scripts-failed":0,"setup-scripts-exec-failed":0,"setup-scripts-timed-out":0,'
    b'"passed":1,"passed-slow":0,"passed-timed-out":0,"flaky":0,"failed":0,"failed-slow":0,'
    b'"failed-timed-out":0,"leaky":0,"leaky-failed":0,"exec-failed":0,"skipped":0},"running":0}'
)

# `abc` on standard output, and nothing on standard error.
ABC = b'{"split":{"stdout":"616263","stderr":""}}'


def finished(outputs: bytes = ABC) -> bytes:
    """A finished test with these outputs."""
    return BEFORE_OUTPUTS + outputs + AFTER_OUTPUTS


# A test ends, up to its attempts, and after them.
BEFORE_ATTEMPTS = (
    '{"current-stats":{"exec-failed":0,"failed":0,"failed-slow":0,"failed-timed-out":0,'
    '"finished-count":0,"flaky":0,"initial-run-count":1,"leaky":0,"leaky-failed":0,"passed":0,'
    '"passed-slow":0,"passed-timed-out":0,"setup-scripts-exec-failed":0,"setup-scripts-failed":0,'
    '"setup-scripts-finished-count":0,"setup-scripts-initial-count":0,"setup-scripts-passed":0,'
    '"setup-scripts-timed-out":0,"skipped":0},"elapsed":{"nanos":0,"secs":3},'
    '"failure-output":"immediate-final","junit-flaky-fail-status":"success",'
    '"junit-store-failure-output":true,"junit-store-success-output":false,"kind":"test-finished",'
    '"run-statuses":{"flaky-result":"fail","statuses":['
)

AFTER_ATTEMPTS = (
    ']},"running":0,"success-output":"never","test-instance":{"binary-id":"alpha::a",'
    '"test-name":"t1"},"timestamp":{"nanos":0,"offset":0,"secs":1002}}'
)

# An attempt, up to its output, and after it.
ATTEMPT_BEFORE_OUTPUT = '{"delay-before-start":{"nanos":0,"secs":0},"is-slow":true,"output":'

ATTEMPT_AFTER_OUTPUT = (
    ',"result":{"fail":{"failure":{"exit-code":-1},"leaked":false}},"retry-data":{"attempt":1,'
    '"total-attempts":2},"start-time":{"nanos":0,"offset":0,"secs":1001},"time-taken":{"nanos":5,'
    '"secs":2}}'
)


def attempt_with(output: str) -> str:
    """An attempt that failed, of which this came."""
    return ATTEMPT_BEFORE_OUTPUT + output + ATTEMPT_AFTER_OUTPUT


def end_after(*attempts: str) -> str:
    """The end of a test after these attempts."""
    return BEFORE_ATTEMPTS + ",".join(attempts) + AFTER_ATTEMPTS


def session_of(*lines: bytes) -> bytes:
    """A session of these lines after a head."""
    return b"\n".join([HEAD, *lines])


def replaced(line: AnyStr, old: AnyStr, new: AnyStr) -> AnyStr:
    """A line with another text in the first place of one that it has."""
    assert old in line
    return line.replace(old, new, 1)


# The session of a run with one test. Its bundle has 3014 bytes, and its trace 1835.
SMALL_SESSION = session_of(RUN_STARTED, TEST_STARTED, b"", finished())

# The log of a run with one test, an event a line.
LOG_LINES = [
    b'{"cli-args":[],"elapsed":{"nanos":0,"secs":0},"kind":"run-started","profile-name":"default",'
    b'"run-id":"550e8400-e29b-41d4-a716-446655440000","timestamp":{"nanos":0,"offset":0,'
    b'"secs":1000}}',
    b'{"command-line":[],"current-stats":{"exec-failed":0,"failed":0,"failed-slow":0,'
    b'"failed-timed-out":0,"finished-count":0,"flaky":0,"initial-run-count":1,"leaky":0,'
    b'"leaky-failed":0,"passed":0,"passed-slow":0,"passed-timed-out":0,'
    b'"setup-scripts-exec-failed":0,"setup-scripts-failed":0,"setup-scripts-finished-count":0,'
    b'"setup-scripts-initial-count":0,"setup-scripts-passed":0,"setup-scripts-timed-out":0,'
    b'"skipped":0},"elapsed":{"nanos":0,"secs":1},"kind":"test-started","running":1,'
    b'"slot-assignment":{"global-slot":0,"test-group":"@global"},'
    b'"test-instance":{"binary-id":"alpha::a","test-name":"t1"},"timestamp":{"nanos":0,"offset":0,'
    b'"secs":1001}}',
    b'{"current-stats":{"exec-failed":0,"failed":0,"failed-slow":0,"failed-timed-out":0,'
    b'"finished-count":1,"flaky":0,"initial-run-count":1,"leaky":0,"leaky-failed":0,"passed":1,'
    b'"passed-slow":0,"passed-timed-out":0,"setup-scripts-exec-failed":0,"setup-scripts-failed":0,'
    b'"setup-scripts-finished-count":0,"setup-scripts-initial-count":0,"setup-scripts-passed":0,'
    b'"setup-scripts-timed-out":0,"skipped":0},"elapsed":{"nanos":0,"secs":2},'
    b'"failure-output":"immediate","junit-flaky-fail-status":"failure",'
    b'"junit-store-failure-output":true,"junit-store-success-output":false,"kind":"test-finished",'
    b'"run-statuses":{"flaky-result":"pass","statuses":[{"delay-before-start":{"nanos":0,'
    b'"secs":0},"is-slow":false,"output":{"output":{"output":{"split":{"stderr":"empty",'
    b'"stdout":{"full":"ba7816bf8f01cfea-stdout"}}}}},"result":"pass","retry-data":{"attempt":1,'
    b'"total-attempts":1},"start-time":{"nanos":0,"offset":0,"secs":1001},"time-taken":{"nanos":0,'
    b'"secs":1}}]},"running":0,"success-output":"never","test-instance":{"binary-id":"alpha::a",'
    b'"test-name":"t1"},"timestamp":{"nanos":0,"offset":0,"secs":1002}}',
]

# The start of that run, and a pause, as they are logged.
LOGGED_RUN_START = LOG_LINES[0] + b"\n"
LOGGED_PAUSE = (
    b'{"elapsed":{"nanos":0,"secs":2},"kind":"run-paused","running":1,"setup-scripts-running":0,'
    b'"timestamp":{"nanos":0,"offset":0,"secs":1002}}\n'
)

# The build scope with each of its defaults, and the store of a run with a head alone.
BUILD_SCOPE = (
    b'{"build-kind":"cargo","scope":{"features":{"all-features":false,"features":[],'
    b'"no-default-features":false},"packages":{"exclude":[],"specs":[],"workspace":false},'
    b'"targets":{"all-targets":false,"benches":{"all":false,"names":[]},"bins":{"all":false,'
    b'"names":[]},"examples":{"all":false,"names":[]},"lib":false,"tests":{"all":false,'
    b'"names":[]}}}}'
)

METADATA = [
    (b"meta/build-scope.json", BUILD_SCOPE),
    (b"meta/test-list.json", b'{"suites":{}}'),
    (b"meta/cargo-metadata.json", b"{}"),
    (b"meta/record-opts.json", b'{"run-mode":"test"}'),
]

# The manifest of a run with this head and no events, 462 bytes.
MANIFEST = (
    b'{"format-version":{"major":1,"minor":1},"run":{"cli-args":[],"env-vars":{},'
    b'"last-written-at":{"nanos":0,"offset":0,"secs":1011},"nextest-version":"0.9.111",'
    b'"run-id":"550e8400-e29b-41d4-a716-446655440000","sizes":{"log":{"compressed":0,"entries":0,'
    b'"uncompressed":0},"store":{"compressed":515,"entries":4,"uncompressed":377}},'
    b'"started-at":{"nanos":0,"offset":0,"secs":1000},"status":{"status":"incomplete"},'
    b'"store-format-minor-version":1,"store-format-version":3}}'
)

# Its sizes, and the same manifest with other ones, also of a store of version 3.0.
NO_SIZES = (
    b'"sizes":{"log":{"compressed":0,"entries":0,"uncompressed":0},"store":{"compressed":515,'
    b'"entries":4,"uncompressed":377}}'
)
COUNTED_MANIFEST = replaced(
    MANIFEST,
    NO_SIZES,
    (
        b'"sizes":{"log":{"compressed":1,"entries":3,"uncompressed":2},"store":{"compressed":4,'
        b'"entries":6,"uncompressed":5}}'
    ),
)
MANIFEST_3_0 = replaced(
    COUNTED_MANIFEST, b'"store-format-minor-version":1', b'"store-format-minor-version":0'
)

# What `replay` prints of the head.
HEADER = b"header 550e8400-e29b-41d4-a716-446655440000 incomplete\n"

# The trace of a head alone, 83 bytes, and the same over several lines.
EMPTY_TRACE = b'{"displayTimeUnit":"ms","otherData":{"nextest_version":"0.9.111"},"traceEvents":[]}'

EMPTY_TRACE_IN_LINES = b"""\
{
  "displayTimeUnit": "ms",
  "otherData": {
    "nextest_version": "0.9.111"
  },
  "traceEvents": []
}"""

# The trace of a pause alone.
PAUSE_ALONE = (
    b'{"displayTimeUnit":"ms","otherData":{"nextest_version":"0.9.111"},'
    b'"traceEvents":[{"args":{"running_scripts":0,"running_tests":1},"cat":"run",'
    b'"name":"concurrency","ph":"C","pid":0,"tid":0,"ts":1002000000},{"args":{"name":"nextest '
    b'run"},"cat":"","name":"process_name","ph":"M","pid":0,"tid":0,"ts":0},'
    b'{"args":{"sort_index":0},"cat":"","name":"process_sort_index","ph":"M","pid":0,"tid":0,'
    b'"ts":0},{"args":{"name":"run"},"cat":"","name":"thread_name","ph":"M","pid":0,"tid":1,'
    b'"ts":0},{"args":{"sort_index":1},"cat":"","name":"thread_sort_index","ph":"M","pid":0,'
    b'"tid":1,"ts":0},{"args":{"running":1,"setup_scripts_running":0},"cat":"run","name":"paused",'
    b'"ph":"i","pid":0,"s":"p","tid":1,"ts":1002000000}]}'
)

# The trace of a run with one test, with a process for each test binary, and the same with one for
# all.
SMALL_TRACE = (
    b'{"displayTimeUnit":"ms","otherData":{"nextest_version":"0.9.111","profile_name":"default",'
    b'"run_id":"550e8400-e29b-41d4-a716-446655440000"},"traceEvents":[{"args":{"name":"nextest run '
    b'(default)"},"cat":"","name":"process_name","ph":"M","pid":0,"tid":0,"ts":0},'
    b'{"args":{"sort_index":0},"cat":"","name":"process_sort_index","ph":"M","pid":0,"tid":0,'
    b'"ts":0},{"args":{"name":"run"},"cat":"","name":"thread_name","ph":"M","pid":0,"tid":1,'
    b'"ts":0},{"args":{"sort_index":1},"cat":"","name":"thread_sort_index","ph":"M","pid":0,'
    b'"tid":1,"ts":0},{"args":{"cli_args":[],"nextest_version":"0.9.111","profile":"default",'
    b'"run_id":"550e8400-e29b-41d4-a716-446655440000"},"cat":"run","name":"test run","ph":"B",'
    b'"pid":0,"tid":1,"ts":1000000000},{"args":{"name":"alpha::a"},"cat":"","name":"process_name",'
    b'"ph":"M","pid":2,"tid":0,"ts":0},{"args":{"sort_index":2},"cat":"",'
    b'"name":"process_sort_index","ph":"M","pid":2,"tid":0,"ts":0},{"args":{"name":"slot-0"},'
    b'"cat":"","name":"thread_name","ph":"M","pid":2,"tid":10000,"ts":0},'
    b'{"args":{"sort_index":10000},"cat":"","name":"thread_sort_index","ph":"M","pid":2,'
    b'"tid":10000,"ts":0},{"args":{"binary_id":"alpha::a","test_name":"t1"},"cat":"test",'
    b'"name":"t1","ph":"B","pid":2,"tid":10000,"ts":1001000000},{"args":{"running_scripts":0,'
    b'"running_tests":1},"cat":"run","name":"concurrency","ph":"C","pid":0,"tid":0,'
    b'"ts":1001000000},{"args":{"attempt":1,"binary_id":"alpha::a","is_slow":false,"result":"pass",'
    b'"test_group":"@global","test_name":"t1","time_taken":{"nanos":0,"secs":1},'
    b'"total_attempts":1},"cat":"test","name":"t1","ph":"E","pid":2,"tid":10000,"ts":1002000000},'
    b'{"args":{"running_scripts":0,"running_tests":0},"cat":"run","name":"concurrency","ph":"C",'
    b'"pid":0,"tid":0,"ts":1002000000},{"args":{"failed":0,"flaky":0,"passed":1},"cat":"run",'
    b'"name":"test results","ph":"C","pid":0,"tid":0,"ts":1002000000}]}'
)

SMALL_TRACE_BY_SLOT = replaced(
    SMALL_TRACE, b'"args":{"name":"alpha::a"}', b'"args":{"name":"tests"}'
).replace(b'"name":"t1"', b'"name":"alpha::a t1"')

# What is said of a store of a newer version, and of an older one.
NEWER_STORE = (
    b"UnsupportedStoreFormatVersion found=3.2 supported=3.1 incompatibility=MinorTooNew "
    b"recording_minor=2 supported_minor=1\n"
)
OLDER_STORE = (
    b"UnsupportedStoreFormatVersion found=2.0 supported=3.1 incompatibility=RecordingTooOld "
    b"recording_major=2 supported_major=3 guidance=Discard last_nextest_version=0.9.149\n"
)
