"""Which tests are to run again after a run, and what of its test list that means."""

from __future__ import annotations

from collections.abc import Sequence
from typing import TypeAlias

from workshop.cases.case import Case, Recorded, Words
from workshop.cases.events import (
    EXIT_CODE,
    attempt,
    attempt_of,
    captured,
    retry_started,
    slot,
    test,
    test_finished,
    test_started,
)
from workshop.cases.head_values import SCOPE
from workshop.cases.histories import (
    TRACED_MANIFEST,
    Line,
    run,
    traced_log,
    traced_session,
    two_slots,
)
from workshop.cases.made import bundle, compact, held, log_of
from workshop.cases.texts import RUN_ID

# A binary with its outstanding and its passing tests.
Suite: TypeAlias = tuple[str, list[str], list[str]]

PARENT_ID = "650e8400-e29b-41d4-a716-446655440000"
ROOT_ID = "750e8400-e29b-41d4-a716-446655440000"
NO_OUTPUT = captured({"split": {}})
LEAKED = {"leak": "pass"}
REUSED = b'{"build-kind":"reused","scope":{}}'


def flaky(secs: int, number: int, counts_as: str) -> Line:
    """The end of a test whose first attempt failed and whose second one passed, and what that
    counts as.
    """
    attempts = attempt(NO_OUTPUT, EXIT_CODE), attempt(NO_OUTPUT, "pass", 2)
    return Line(
        secs,
        test_finished(*attempts, of=test(f"t{number}", "alpha::a"), flaky=("failure", counts_as)),
        more=-1,
    )


def retried(counts_as: str) -> list[Line]:
    """Two binaries with two tests each, a pause, and a retry that passes."""
    return two_slots(second_end=flaky(1010, 2, counts_as))


def selection(suites: Sequence[Suite], root: str = RUN_ID, scope: str = SCOPE) -> str:
    """The line of a selection after the run, whose root is this, with the outstanding and the
    passing tests of binaries.
    """
    sets = ",".join(
        '{"binary_id":"%s","outstanding":[%s],"passing":[%s]}'
        % (
            binary,
            ",".join(f'"{name}"' for name in outstanding),
            ",".join(f'"{name}"' for name in passing),
        )
        for binary, outstanding, passing in suites
    )
    return (
        '{"parent-run-id":"%s","root-info":{"build-scope":%s,"run-id":"%s"},"test-suites":[%s]}\n'
        % (RUN_ID, scope, root, sets)
    )


def stored(
    scope: bytes | None = b'{"build-kind":"cargo","scope":{}}',
    rerun: bytes | None = None,
    tests: bytes | None = b'{"suites":{}}',
) -> bytes:
    """A store with what is asked of it for a rerun."""
    return held(
        (b"meta/build-scope.json", scope),
        (b"meta/rerun-info.json", rerun),
        (b"meta/test-list.json", tests),
    )


def asked(
    name: str,
    log: bytes | None,
    store: bytes | None,
    out: str = "",
    status: int = 0,
    err: str = "",
    options: Words = (),
) -> Case:
    """A case of `rerun` over a bundle of this log and this store."""
    line = f"{err}\n".encode() if err else b""
    return Case(
        f"rerun {name}",
        ("rerun", *options),
        bundle(log, store, TRACED_MANIFEST),
        status,
        out.encode(),
        line,
    )


def rerun_of(suites: Sequence[Suite]) -> bytes:
    """The rerun info of a run that reran these."""
    named = [
        {"binary_id": binary, "outstanding": outstanding, "passing": passing}
        for binary, outstanding, passing in suites
    ]
    root = {"run-id": ROOT_ID, "build-scope": {"build-kind": "cargo", "scope": {}}}
    return compact({"parent-run-id": PARENT_ID, "root-info": root, "test-suites": named})


def begun(name: str, binary: str = "a") -> Line:
    """A test of a binary starts."""
    return Line(1001, test_started(test(name, binary)), more=1)


def ended(name: str, *results: object, counts_as: str = "pass") -> Line:
    """It ends after attempts that ended so, and counts as this where it is flaky."""
    attempts = [
        attempt(NO_OUTPUT, result, number, len(results)) for number, result in enumerate(results, 1)
    ]
    return Line(
        1002, test_finished(*attempts, of=test(name, "a"), flaky=("failure", counts_as)), more=-1
    )


def begun_again(name: str) -> Line:
    """It starts again."""
    return Line(1001, retry_started(test(name, "a"), slot(), attempt_of(1, 2)), more=1)


ALL_PASSED = selection([("alpha::a", [], ["t1", "t2"]), ("beta::b", [], ["t3", "t4"])])
ONE_FAILED = (
    selection([("alpha::a", ["t2"], ["t1"]), ("beta::b", [], ["t3", "t4"])]) + "gone alpha::a t2\n"
)
ONE_PASSED = traced_log([run(1000), begun("t1"), ended("t1", "pass")])
LISTED = b'{"suites":{"a":["t3","t1","t2","t1"],"b":["t1"]}}'
PARENT = rerun_of([("a", ["y"], ["x"])])

# Events of one test, and whether it has passed by them.
STANDINGS = (
    ([begun("t")], False),
    ([begun("t"), ended("t", "pass")], True),
    ([begun("t"), ended("t", EXIT_CODE)], False),
    ([begun("t"), ended("t", "pass"), begun("t")], False),
    ([begun("t"), ended("t", EXIT_CODE), begun("t"), ended("t", "pass")], True),
    ([begun("t"), ended("t", "pass"), begun("t"), ended("t", EXIT_CODE)], False),
    ([ended("t", "pass"), begun("t")], False),
    ([begun("t"), ended("t", "pass"), begun_again("t"), ended("t", "pass")], True),
    ([begun("t"), begun("t"), ended("t", "exec-fail", "pass"), ended("t", "pass")], True),
    # What a test counts as where it is flaky says nothing of one whose only attempt passed.
    ([begun("t"), ended("t", "pass", counts_as="fail")], True),
    ([begun("t"), ended("t", "exec-fail", "pass")], True),
    ([begun("t"), ended("t", "exec-fail", "pass", counts_as="fail")], False),
    ([begun("t"), ended("t", "pass", "pass", counts_as="fail")], False),
    ([begun("t"), ended("t", "exec-fail", LEAKED)], True),
    ([begun("t"), ended("t", "pass", "exec-fail")], False),
)

# Events of tests of a binary after a rerun in which `x` passed and `y` may not have, and the tests
# that are outstanding and that have passed by both.
AFTER_X_PASSED: tuple[tuple[str, list[Line], list[str], tuple[list[str], list[str]]], ...] = (
    ("y starts and passes", [begun("y"), ended("y", "pass")], ["y"], ([], ["x", "y"])),
    ("x ends without a start", [ended("x", "exec-fail")], [], ([], ["x"])),
    ("x starts and fails", [begun("x"), ended("x", "exec-fail")], [], (["x"], [])),
)


def reran(
    name: str, events: Sequence[Line], outstanding: list[str], suite: tuple[list[str], list[str]]
) -> Case:
    gone = "".join(f"gone a {test}\n" for test in suite[0])
    return asked(
        f"of a parent after which {name}",
        traced_log(events),
        stored(rerun=rerun_of([("a", outstanding, ["x"])])),
        selection([("a", *suite)], ROOT_ID) + gone,
    )


def standing(number: int, events: Sequence[Line], passed: bool) -> Case:
    suite: Suite = ("a", [], ["t"]) if passed else ("a", ["t"], [])
    plan = "skip a t\n" if passed else "run a t\n"
    return asked(
        f"of one test, {number}",
        traced_log(events),
        stored(tests=b'{"suites":{"a":["t"]}}'),
        selection([suite]) + plan,
    )


CASES = [
    Case(
        "rerun after a retry that passed",
        ("rerun",),
        Recorded(traced_session(retried("pass"))),
        out=ALL_PASSED.encode(),
    ),
    Case(
        "rerun after a retry that counts as failed",
        ("rerun",),
        Recorded(traced_session(retried("fail"))),
        out=ONE_FAILED.encode(),
    ),
    *[standing(number, *row) for number, row in enumerate(STANDINGS, 1)],
    asked("of no events", b"", stored(), selection([])),
    asked("of an end alone", traced_log([ended("t", "pass")]), stored(), selection([])),
    asked(
        "of a list",
        ONE_PASSED,
        stored(tests=LISTED),
        selection([("a", [], ["t1"])]) + "run a t3\nrun a t2\nrun b t1\nskip a t1\n",
    ),
    asked(
        "of a parent",
        traced_log([run(1000), begun("y")]),
        stored(rerun=PARENT),
        selection([("a", ["y"], ["x"])], ROOT_ID) + "gone a y\n",
    ),
    *[reran(*after) for after in AFTER_X_PASSED],
    asked(
        "of a build that was reused",
        b"",
        stored(REUSED),
        selection([], scope=SCOPE.replace("cargo", "reused")),
    ),
    asked(
        "of a build that was reused, and a parent",
        b"",
        stored(REUSED, rerun_of([])),
        selection([], ROOT_ID),
    ),
    asked(
        "of a list with tests that the rerun info names, and others",
        b"",
        stored(
            rerun=rerun_of([("b", ["t"], ["u"]), ("c", ["z", "a"], [])]),
            tests=b'{"suites":{"b":["t","u","t"],"a":["x"]}}',
        ),
        selection([("b", ["t"], ["u"]), ("c", ["a", "z"], [])], ROOT_ID)
        + "run a x\nrun b t\nskip b u\ngone c a\ngone c z\n",
    ),
    asked(
        "of a parent in which a test is in both sets",
        b"",
        stored(rerun=rerun_of([("a", ["x"], ["x"])])),
        selection([("a", [], ["x"])], ROOT_ID),
    ),
    asked(
        "without a log and a store", None, None, status=12, err="MissingFile file_name=run.log.zst"
    ),
    asked(
        "of a log above the limit",
        ONE_PASSED,
        stored(),
        status=7,
        options=("--read-limit", "700"),
        err=f"FileTooLarge file_name=run.log.zst size={len(ONE_PASSED)} limit=700",
    ),
    asked("without a store", b"{}\n", None, status=12, err="MissingFile file_name=store.zip"),
    asked("of a store that is none", b"{}\n", b"PK", status=12, err="ReadArchive fault=BadMagic"),
    asked(
        "without a build scope",
        b"{}\n",
        stored(None, b"{}", b"[]"),
        status=12,
        err="FileNotFound file_name=meta/build-scope.json",
    ),
    asked(
        "of a build scope that is none",
        b"{}\n",
        stored(b"{}", b"{}", b"[]"),
        status=12,
        err="DeserializeMetadata file_name=meta/build-scope.json",
    ),
    asked(
        "of rerun info that is none",
        b"{}\n",
        stored(rerun=b"{}", tests=b"[]"),
        status=12,
        err="DeserializeMetadata file_name=meta/rerun-info.json",
    ),
    asked(
        "of a test list that is none",
        b"{}\n",
        stored(tests=b"[]"),
        status=12,
        err="DeserializeMetadata file_name=meta/test-list.json",
    ),
    asked(
        "without a test list",
        b"{}\n",
        stored(tests=None),
        status=12,
        err="FileNotFound file_name=meta/test-list.json",
    ),
    asked(
        "of a line that is no event",
        log_of(b" ", b"{}"),
        stored(),
        status=5,
        err="ParseEvent line_number=2",
    ),
    asked(
        "of a line that is no text",
        b"\n\xff\n{}\n",
        stored(),
        status=5,
        err="ReadRunLog line_number=2",
    ),
]
