"""What `report` says of tests and setup scripts: their suites, cases, endings and outputs."""

from __future__ import annotations

import json
from collections.abc import Iterator, Mapping, Sequence

from workshop.cases.case import Case, Holds, both
from workshop.cases.events import (
    PAUSE,
    RUN_FINISHED,
    START_ERROR,
    attempt,
    captured,
    course,
    script_ended,
    script_members,
    test,
    test_finished,
    test_skipped,
)
from workshop.cases.made import (
    BENCHMARK,
    OPTIONS,
    Members,
    compact,
    duration,
    instant,
    log,
    run_bundle,
    store,
)

REPORTED = ("report",)
STDOUT, STDERR, BOTH, NO_UTF8 = (
    b"0000000000000001-stdout",
    b"0000000000000002-stderr",
    b"0000000000000003-combined",
    b"0000000000000004-stdout",
)

OUTPUTS = (
    (b"out/" + STDOUT, b"stdout"),
    (b"out/" + STDERR, b"stderr"),
    (b"out/" + BOTH, b"both"),
    (b"out/" + NO_UTF8, b"a\xFFb"),
)


def text_at(report: bytes, path: str) -> str:
    """The JSON at a path of the first report, empty where there is none."""
    found = json.loads(report.partition(b"\n")[0] or b"null")
    for name in path.split("/")[1:]:
        members = (
            {str(number): item for number, item in enumerate(found)}
            if isinstance(found, list)
            else found
        )
        if not isinstance(members, dict) or name not in members:
            return ""
        found = members[name]
    return compact(found).decode()


def says(path: str, text: str) -> Holds:
    return Holds(f"{text or 'nothing'} at {path}", lambda report: text_at(report, path) == text)


def of_events(
    tests: Mapping[str, Sequence[str]], *events: Members, options: bytes = OPTIONS
) -> bytes:
    """The bundle of a run of these events."""
    return run_bundle(
        log([*events, RUN_FINISHED]), store(options, compact({"suites": tests}), OUTPUTS)
    )


RESULTS = {
    "p": "pass",
    "l": {"leak": "pass"},
    "L": {"leak": "fail"},
    "c": {"fail": {"failure": {"exit-code": 101}, "leaked": False}},
    "C": {"fail": {"failure": {"exit-code": 101}, "leaked": True}},
    "a": {"fail": {"failure": {"abort": {"signal": 6}}, "leaked": False}},
    "A": {"fail": {"failure": {"abort": {"signal": 6}}, "leaked": True}},
    "k": {"fail": {"failure": {"abort": {"signal": 15, "name": "TERM"}}, "leaked": False}},
    "t": {"timeout": "pass"},
    "T": {"timeout": "fail"},
    "x": "exec-fail",
}


def split(**names: bytes) -> Members:
    return captured(
        {
            "split": {
                stream: name and {"full": name.decode()} or "empty"
                for stream, name in names.items()
            }
        }
    )


WROTE = {
    "s": split(stdout=STDOUT, stderr=STDERR),
    "o": split(stdout=STDOUT),
    "e": split(stderr=STDERR),
    "u": split(stdout=NO_UTF8, stderr=b""),
    "b": captured({"combined": {"full": BOTH.decode()}}),
    "!": START_ERROR,
    "E": {"output": {"output": {"split": {}}, "errors": ["first", "second"]}},
}


def finished(
    ended: str,
    wrote: str,
    flags: str,
    name: str = "t",
    binary: str = "bin",
    index: Members | None = None,
) -> Members:
    """The end of a test whose attempts ended and wrote so.

    The attempt of a number began at that second and took so long.

    `f` in the flags says that it counts as failed where it is flaky, `s` that it is then reported
    as a success, `+` and `-` that outputs of successes and of failures are stored.
    """
    attempts = [
        attempt(WROTE[output], RESULTS[result], number, 3, start=number, taken=number)
        for number, (result, output) in enumerate(zip(ended, wrote), 1)
    ]
    flaky = "success" if "s" in flags else "failure", "fail" if "f" in flags else "pass"
    stores = "+" in flags, "-" in flags
    return test_finished(*attempts, of=test(name, binary), stores=stores, flaky=flaky, index=index)


def of_test(ended: str, wrote: str, flags: str, options: bytes = OPTIONS) -> bytes:
    return of_events({"bin": ["t"]}, finished(ended, wrote, flags), options=options)


# What is said of a first attempt that was aborted, before one that passed.
FLAKY = (
    '{"success":[{"kind":"failure","time":{"nanos":0,"secs":1},"timestamp":{"nanos":0,"offset":0,'
    '"secs":1},"type-text":"test abort"}]}'
)

# The same where it counts as failed, and is reported so.
FLAKY_FAILURE = (
    '{"non-success":{"kind":"failure","message":"test passed on attempt 2/3 but is configured to '
    'fail when flaky","rerun-kind":"flaky","reruns":[{"kind":"failure","time":{"nanos":0,"secs":1},'
    '"timestamp":{"nanos":0,"offset":0,"secs":1},"type-text":"test abort"}],"type-text":"flaky '
    'failure"}}'
)

# What is said of an abort before an exit code and a process that could not be started.
FAILURE = (
    '{"non-success":{"kind":"failure","rerun-kind":"rerun","reruns":[{"kind":"failure",'
    '"time":{"nanos":0,"secs":2},"timestamp":{"nanos":0,"offset":0,"secs":2},"type-text":"test '
    'failure with exit code 101"},{"kind":"error","time":{"nanos":0,"secs":3},'
    '"timestamp":{"nanos":0,"offset":0,"secs":3},"type-text":"execution failure"}],'
    '"type-text":"test abort"}}'
)

# What a report says at a path of its case, and the tests of which it says so: how their attempts
# ended, what these wrote, and flags.
ENDS = {
    "/status/non-success/kind": {
        '"failure"': ["c s", "a s", "T s"],
        '"error"': ["x s", "L s", "lc ss"],
    },
    "/status/non-success/type-text": {
        '"test failure with exit code 101"': ["c s"],
        '"test failure with exit code 101 (leaked handles)"': ["C s"],
        '"test abort"': ["a s"],
        '"test abort (leaked handles)"': ["A s"],
        '"test timeout"': ["T s"],
        '"execution failure"': ["x s"],
        '"test exited with code 0, but leaked handles so was marked failed"': ["L s"],
        '"test passed but leaked handles"': ["lc ss"],
    },
    "/status": {
        '{"success":[]}': ["p s", "l s f", "t s"],
        FLAKY: ["ap ss", "ap ss fs"],
        FLAKY_FAILURE: ["ap ss f"],
        FAILURE: ["acx sss f"],
    },
    "/time": {
        '{"nanos":0,"secs":1}': ["p s", "cc ss"],
        '{"nanos":0,"secs":2}': ["cp ss f"],
    },
    "/system-out": {
        '"stdout"': ["p s +", "cc sb -"],
        "": ["p s -", "x ! +", "cp sb f-"],
        '"both"': ["p b +-", "cp sb f+"],
        '"(stdout not captured)"': ["p e +"],
        '"a\uFFFDb"': ["p u +"],
        '"(process failed to start)"': ["x ! -"],
    },
    "/system-err": {
        '"stderr"': ["p s +"],
        '"(stdout and stderr are combined)"': ["p b +"],
        '"(stderr not captured)"': ["p o +"],
        '""': ["p u +"],
        '"(process failed to start)"': ["x ! -"],
    },
    "/status/success/0/system-out": {
        '"stdout"': ["cp sb -"],
        "": ["cp sb +"],
    },
    "/status/success/0/system-err": {
        '"stderr"': ["cp sb -"],
        "": ["cp sb +"],
    },
    "/status/non-success/reruns/0/system-out": {
        '"stdout"': ["ck so -"],
        "": ["cc sb +"],
    },
    "/status/non-success/reruns/0/system-err": {
        '"(stderr not captured)"': ["ck so -"],
        '"(stdout and stderr are combined)"': ["cC sb -"],
        "": ["cc sb +"],
    },
    "/status/non-success/message": {
        '"first"': ["c E", "cp sE f"],
        '"no such file"': ["x !"],
        "": ["c s"],
    },
    "/status/non-success/description": {
        r'"first\nsecond"': ["c E"],
        '"no such file"': ["x !"],
        "": ["cp ss f"],
    },
}

# What stands in system-out and system-err of a test that ended and wrote so. What isn't stored has
# neither.
STORED = (
    ("p", "b", "+", '"both"', '"(stdout and stderr are combined)"'),
    ("p", "b", "-", "", ""),
    ("p", "s", "+", '"stdout"', '"stderr"'),
    ("p", "s", "-", "", ""),
    ("C", "b", "-", '"both"', '"(stdout and stderr are combined)"'),
    ("C", "b", "+", "", ""),
    ("c", "s", "-", '"stdout"', '"stderr"'),
    ("c", "s", "+", "", ""),
    ("k", "o", "-", '"stdout"', '"(stderr not captured)"'),
)

# An attempt that passed stands before another one.
REFUSED = (("pp", "ss", ""), ("tc", "ss", ""), ("cpc", "sss", ""))


def ends() -> Iterator[Case]:
    """What a report says of each end of a test."""
    for path, texts in ENDS.items():
        for text, words in ((text, words) for text, tests in texts.items() for words in tests):
            ended, wrote, flags = (*words.split(), "")[:3]
            yield Case(
                f"{path} of {ended} {wrote} {flags}",
                REPORTED,
                of_test(ended, wrote, flags),
                out=says(f"/suites/0/cases/0{path}", text),
            )


def stored() -> Iterator[Case]:
    """What a report has of both streams."""
    for ended, wrote, flags, out, err in STORED:
        yield Case(
            f"both streams of {ended} {wrote} {flags}",
            REPORTED,
            of_test(ended, wrote, flags),
            out=both(
                says("/suites/0/cases/0/system-out", out), says("/suites/0/cases/0/system-err", err)
            ),
        )


# Tests that don't run, by why they don't and the policy of the report.

IGNORED = (
    '[{"cases":[{"classname":"my-crate::my-bin","name":"tests::my_skipped_test",'
    '"status":{"skipped":"Skipped: test does not match the run-ignored option"},"time":{"nanos":0,'
    '"secs":0}}],"name":"my-crate::my-bin","properties":[]}]'
)
ELSEWHERE = (
    '[{"cases":[{"classname":"my-crate::my-bin","name":"tests::my_skipped_test",'
    '"status":{"skipped":"Skipped: test is in a different partition"},"time":{"nanos":0,'
    '"secs":0}}],"name":"my-crate::my-bin","properties":[]}]'
)

SKIPS = (
    ("ignored", "ignored", IGNORED),
    ("ignored", "none", "[]"),
    ("partition", "ignored", "[]"),
    ("partition", "all", ELSEWHERE),
)


def of_skipped(reason: str, policy: str) -> bytes:
    skipped = test_skipped("tests::my_skipped_test", reason, policy, "my-crate::my-bin")
    return of_events({"my-crate::my-bin": ["tests::my_skipped_test"]}, skipped)


SECOND, SECOND_OF_4 = {"current": 1}, {"current": 1, "total": 4}


def of_script(args: Sequence[str], result: object, output: Members, **rest: object) -> bytes:
    """The run of a script that ended and wrote so."""
    ran = course(output, result, instant(3), duration(4))
    set_by_it = {"env-map": {"URL": "db://", "PORT": "1"}}
    members = script_members(program="./prepare db", args=args)
    script = script_ended({**ran, **set_by_it}, members)
    return of_events({}, {"kind": script["kind"], **rest, **script}, options=BENCHMARK)


# What is said of a script that was stopped for its time, in the second run of a stress run.
SCRIPT_FAILED = (
    r'{"cases":[{"classname":"@setup-script:db@stress-1","name":"db",'
    r'"status":{"non-success":{"description":"first\nsecond",'
    '"kind":"failure","message":"first","rerun-kind":"rerun","reruns":[],"type-text":"script '
    'timeout"}},"time":{"nanos":0,'
    '"secs":4},"timestamp":{"nanos":0,"offset":0,"secs":3}}],"name":"@setup-script:db@stress-1",'
    '"properties":[{"name":"command",'
    '"value":"./prepare db"},{"name":"args","value":"\'a b\' c"},{"name":"output-env:PORT",'
    '"value":"1"},{"name":'
    '"output-env:URL","value":"db://"}]}'
)

# Words, and how a shell reads them.
JOINED: tuple[tuple[list[str], str], ...] = (
    ([], ""),
    (["a b", "c"], "'a b' c"),
    (["", "x"], "'' x"),
    (["it's"], "'it'\\''s'"),
    (["'"], "''\\'''"),
    (["A-Za-z0-9_-./,:@+"], "A-Za-z0-9_-./,:@+"),
    (["$x"], "'$x'"),
    (["grün"], "'grün'"),
)
TAIL = (
    '"status":{"success":[]},"time":{"nanos":0,"secs":1},"timestamp":{"nanos":0,"offset":0,'
    '"secs":1}}'
)
B = '{"cases":[{"classname":"b","name"'

FIRST_SUITES = (
    f'[{B}:"t1",{TAIL},{{"classname":"b","name":"t7",{TAIL}],"name":"b","properties":[]}},'
    f'{{"cases":[{{"classname":"a","name":"t2",{TAIL}],"name":"a","properties":[]}},{B}:"t4",'
    f'{TAIL},{{"classname":"b","name":"t8",{TAIL}],"name":"b@stress-1","properties":[]}},{B}:"t5",'
    f'{TAIL}],"name":"b@stress-1","properties":[]}}]'
)
SECOND_SUITES = (
    '[{"cases":[{"classname":"a","name":"t9","status":{"success":[]},"time":{"nanos":0,"secs":1},'
    '"timestamp":{"nanos":0,"offset":0,"secs":1}}],"name":"a","properties":[]}]'
)


def passed(binary: str, name: str, index: Members | None = None) -> Members:
    return finished("p", "s", "", name, binary, index)


TWO_RUNS = of_events(
    {"a": ["t2", "t9"], "b": ["t1", "t4", "t5", "t7", "t8"]},
    passed("b", "t1"),
    passed("a", "t2"),
    passed("b", "t4", SECOND),
    passed("b", "t5", SECOND_OF_4),
    passed("b", "t7"),
    passed("b", "t8", SECOND),
    RUN_FINISHED,
    passed("a", "t9"),
)


def both_say(first: str, second: str) -> Holds:
    """Two reports with these suites."""
    return Holds(
        f"reports of {first} and of {second}",
        lambda reports: [text_at(report, "/suites") for report in reports.splitlines()]
        == [first, second],
    )


CASES = [
    *ends(),
    *stored(),
    Case(
        "a benchmark that was stopped",
        REPORTED,
        of_test("T", "s", "", BENCHMARK),
        out=says("/suites/0/cases/0/status/non-success/type-text", '"benchmark timeout"'),
    ),
    *[
        Case(
            f"a success that fails: {ended}",
            REPORTED,
            of_test(ended, wrote, flags),
            13,
            err=b"SuccessAsFailure\n",
        )
        for ended, wrote, flags in REFUSED
    ],
    *[
        Case(
            f"a test of {reason} by {policy}",
            REPORTED,
            of_skipped(reason, policy),
            out=says("/suites", text),
        )
        for reason, policy, text in SKIPS
    ],
    Case(
        "a script that was stopped",
        REPORTED,
        of_script(["a b", "c"], RESULTS["T"], WROTE["E"], **{"stress-index": SECOND}),
        out=says("/suites/0", SCRIPT_FAILED),
    ),
    *[
        Case(
            f"the words {words}",
            REPORTED,
            of_script(words, "pass", WROTE["s"]),
            out=says("/suites/0/properties/1", compact({"name": "args", "value": joined}).decode()),
        )
        for words, joined in JOINED
    ],
    Case("two runs of two binaries", REPORTED, TWO_RUNS, out=both_say(FIRST_SUITES, SECOND_SUITES)),
    Case(
        "a run that was paused",
        REPORTED,
        of_events({}, {**PAUSE, "running": 0}),
        out=says("/suites", "[]"),
    ),
]
