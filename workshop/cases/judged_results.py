"""What results count as: a success of a flaky test, a failed test of the counter, and a skipped
test of the report.
"""

from __future__ import annotations

import json
from collections.abc import Sequence

from workshop.cases.case import SOME, Case, Wanted, both, has, lacks
from workshop.cases.events import (
    TIMES,
    course,
    run_finished,
    run_started,
    sorted_stats,
    status,
    test,
    test_finished,
    test_skipped,
    test_started,
)
from workshop.cases.made import ONE_TEST, Members, bundle, duration, instant, log_of, session, store
from workshop.cases.texts import COUNTED_MANIFEST

NO_COUNTS_YET = sorted_stats(initial_run_count=1)
T1 = test("t1", "alpha::a")

# Results, and whether they are a success.
RESULTS = [
    ("pass", True),
    ("exec-fail", False),
    ({"leak": "pass"}, True),
    ({"leak": "fail"}, False),
    ({"timeout": "pass"}, True),
    ({"timeout": "fail"}, False),
    ({"fail": {"failure": {"abort": {"signal": 0, "name": ""}}, "leaked": False}}, False),
]
FLAKY_FAILURE = has(
    b'"error":{"description":"test passed on attempt 2/3 but is configured to fail when flaky",'
    b'"short_message":"flaky failure"}'
)
SOME_FAILED = {"failed": 1, "exec-failed": 2, "failed-timed-out": 4, "failed-slow": 8}

REASONS = [
    ("not-benchmark", b"is not a benchmark"),
    ("ignored", b"does not match the run-ignored option"),
    ("string", b"does not match the provided string filters"),
    ("expression", b"does not match the provided expression filters"),
    ("partition", b"is in a different partition"),
    ("rerun-already-passed", b"already passed"),
    ("default-filter", b"is filtered out by the profile's default-filter"),
]


def line_of(members: Members) -> str:
    """Return the line of an event at second 0."""
    return json.dumps({**TIMES, **members})


def recorded(results: Sequence[object], flaky_result: str, failed: Members) -> bytes:
    """The session of a test with these results, and so many failed tests at its end."""
    attempts = [
        status(number, 3, course({"start-error": ""}, result, instant(0), duration(0)))
        for number, result in enumerate(results, 1)
    ]
    end = test_finished(
        *attempts,
        of=T1,
        counts={**NO_COUNTS_YET, **failed},
        stores=(False, False),
        flaky=("failure", flaky_result),
    )
    return session(line_of(test_started(T1, counts=NO_COUNTS_YET)), line_of(end))


def traced(name: str, source: bytes, out: Wanted) -> Case:
    return Case(name, ("record", "b"), source, out=out, file=SOME)


def reported(reason: str, said: bytes, policy: str, is_reported: bool) -> Case:
    """The report of a run in which a test was skipped."""
    skip, end = test_skipped("t1", reason, policy, "alpha::a"), run_finished(
        {"single": NO_COUNTS_YET}, 0, duration(0)
    )
    skipped = has(b'"status":{"skipped":', said) if is_reported else lacks(b'"skipped"')
    source = bundle(
        log_of(*map(line_of, (run_started(), skip, end))), store(tests=ONE_TEST), COUNTED_MANIFEST
    )
    return Case(
        f"skipped, {reason}, {policy}",
        ("report",),
        source,
        out=both(has(b'"name":"nextest-run"'), skipped),
    )


CASES = [
    *(
        traced(
            f"flaky, {result}",
            recorded(["exec-fail", result], "pass", {}),
            has(b'"flaky_result":"pass"') if is_success else lacks(b'"flaky_result"'),
        )
        for result, is_success in RESULTS
    ),
    traced("flaky failure", recorded(["exec-fail", "pass"], "fail", {}), FLAKY_FAILURE),
    traced(
        "flaky pass", recorded(["exec-fail", "pass"], "pass", {}), lacks(b"is configured to fail")
    ),
    traced(
        "no failed tests",
        recorded(["pass"], "pass", {}),
        has(b'"args":{"failed":0,"flaky":0,"passed":0}'),
    ),
    traced(
        "failed tests",
        recorded(["pass"], "pass", SOME_FAILED),
        has(b'"args":{"failed":7,"flaky":0,"passed":0}'),
    ),
    Case(
        "failed tests past what is counted",
        ("record", "b"),
        recorded(["pass"], "pass", SOME_FAILED | {"failed": 18446744073709551615}),
        9,
        err=b"CountOutOfRange event=2\n",
    ),
    *(reported(reason, said, "none", False) for reason, said in REASONS),
    *(reported(reason, said, "ignored", reason == "ignored") for reason, said in REASONS),
    *(reported(reason, said, "all", True) for reason, said in REASONS),
]
