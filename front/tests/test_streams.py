"""Sessions of streams that are told in brief: what libtest, cargo and nextest print."""

from __future__ import annotations

import itertools
import time

import pytest

from rezovamy_runs.commands import session_from_libtest
from rezovamy_runs.commands.session_from_libtest import NOTHING, NoSession
from rezovamy_runs.streams.session_json import text
from tests import EXAMPLES
from tests.stream_cases import CASES, Case
from tests.stream_notation import (
    CAUSE,
    CRASHED,
    DOC,
    FAILED,
    INTEGRATION,
    NAMED,
    NOT_BUILT,
    OTHER,
    UNIT,
    artifact,
    convert,
    counted,
    errors_of,
    last_status,
    output_of,
    stream,
)

EXAMPLE = EXAMPLES / "sums.libtest.json"


@pytest.mark.parametrize("case", CASES.values(), ids=CASES.keys())
def test_a_stream_without_a_clock(case: Case) -> None:
    """The events, and the number of lines that are said."""
    made = convert(stream(case.words), *case.options)
    assert (made.brief(), len(made.said)) == (case.events, case.said), made.said


@pytest.mark.parametrize("case", CASES.values(), ids=CASES.keys())
def test_a_stream_with_a_clock(case: Case) -> None:
    """As much is said of lines that come at their instants."""
    ticks = itertools.count(10**18, 10**6).__next__
    made = convert(stream(case.words), *case.options, source=ticks)
    assert len(made.said) == case.said, made.said


BUILT = artifact("path+file:///w/x#other-sums@0.1.0", "test", "t", "t-2123456789abcdef", True)
NAMED_WITH_TEST = f"{NAMED} > {BUILT}"
ANNOUNCED_BY_TEST = (
    f"{NAMED_WITH_TEST} > {UNIT} > suite 1 > started x > {OTHER} > =running 1 test > ok x > end"
)


@pytest.mark.parametrize(
    ("words", "events"),
    [
        pytest.param(
            ANNOUNCED_BY_TEST,
            "started x 0 > finished x passed > started (run) 0 > finished (run) failed > 2 of 2",
            id="it never runs",
        ),
        pytest.param(
            f"{ANNOUNCED_BY_TEST} > {OTHER} > suite 1 > started y > ok y > end",
            "started x 0 > finished x passed > started y 0 > finished y passed > 2 of 2",
            id="it runs later",
        ),
        # What ends in the suite that a test prints is believed once the numbers of its own suite
        # say so.
        pytest.param(
            f"{NAMED_WITH_TEST} > {UNIT} > suite 2 > started x > started z > {OTHER} > suite 1 > "
            f"started y > ok z > ok y > end > ok x > {counted(2, 0, 0)} > {OTHER} > suite 1 > "
            "started y > failed y > end 1",
            "started x 0 > started z 1 > finished x passed > finished z passed > started y 0 > "
            "finished y failed > 3 of 3",
            id="the numbers of the suite tell",
        ),
    ],
)
def test_a_binary_that_a_test_announces(words: str, events: str) -> None:
    """One that cargo never runs makes the run fail; one that runs later doesn't."""
    assert convert(stream(words), "--status", "0").brief() == events


def test_a_test_that_announces_a_binary_and_crashes() -> None:
    """What it printed is told of the crash."""
    made = convert(
        stream(
            f"{NAMED} > {INTEGRATION} > suite 1 > started x > {OTHER} > =running 1 test > {CRASHED}"
        )
    )
    assert made.brief() == "started x 0 > finished x abort-11 > 1 of 1"
    assert "running 1 test" in errors_of(made.finished()[0])[-1]


def test_binaries_that_cargo_names() -> None:
    """Their ids are those that cargo names, also after other text."""
    doc = DOC.replace("=", "=text ").replace("Doc-tests s", "Doc-tests sums")
    lines = [NAMED, *(f"{line} > suite 0 > end" for line in (UNIT, INTEGRATION, OTHER, doc))]
    made = convert(stream(" > ".join(lines)))
    named = ["other-sums::bin/tool", "other-sums::s", "sums", "sums::doc/sums"]
    assert sorted(made.head["test-list"]["suites"]) == named
    assert made.values[-1]["run-stats"]["single"]["failed"] == 0


def test_a_binary_that_cargo_names_in_quotation_marks() -> None:
    """Its id is the one that cargo names."""
    path = "/a b/target/debug/deps/s-1123456789abcdef"
    quoted = f"=     Running `env 'X=1 2' '{path}' -Z unstable-options`"
    made = convert(stream(f"{NAMED} > {quoted} > suite 0 > end"))
    assert list(made.head["test-list"]["suites"]) == ["other-sums::s"]


def test_a_run_of_cargo_after_one_that_ended_in_a_crash() -> None:
    """What it runs is told too."""
    named = NAMED.split(" > ")[:3]
    first = " > ".join([*named, INTEGRATION, "suite 1", "started x", CRASHED])
    made = convert(stream(f"{first} > {NAMED} > {OTHER} > suite 1 > started y > failed y > end"))
    crashed = "started x 0 > finished x abort-11"
    assert made.brief() == f"{crashed} > started y 0 > finished y failed > 2 of 2"


def test_a_binary_that_cargo_did_not_build() -> None:
    """It isn't one of this run."""
    inner = OTHER.replace("t-2", "t-3")
    made = convert(stream(f"{NAMED} > {UNIT} > suite 1 > started x > {inner} > ok x > end"))
    assert made.brief() == "started x 0 > finished x passed > 1 of 1"


def library(source: str, package: str, folder: str) -> str:
    """Return the line of cargo's that names a library `s` of a package."""
    return "=" + text(
        {
            "reason": "compiler-artifact",
            "package_id": f"{source}#{package}@0.1.0",
            "manifest_path": f"/w{folder}/Cargo.toml",
            "target": {"kind": ["lib"], "name": "s"},
        }
    )


LIBRARIES = [
    library("path+file:///w", "cc", "/src/c"),
    library("path+file:///w", "top", ""),
    library("path+file:///w", "bb", "/b"),
    library("registry+x", "aa", "/"),
]
DOCTESTS = [
    " > ".join(
        [
            "suite 1",
            "=" + text({"type": "test", "event": "started", "name": f"{file} - f (line 1)"}),
            "=" + text({"type": "test", "event": "ok", "name": f"{file} - f (line 1)"}),
            "end",
        ]
    )
    for file in ("src/lib.rs", "src/c/x/y.rs", "b/src/lib.rs")
]
FAILURES = [
    f"=error: doctest failed, to rerun pass `-p {package} --doc`" for package in ("bb", "cc", "top")
]


@pytest.mark.parametrize(
    ("ends", "packages"),
    [
        pytest.param(DOCTESTS, ["top", "cc", "bb"], id="files of doctests"),
        pytest.param(FAILURES, ["bb", "cc", "top"], id="failures without doctests"),
    ],
)
def test_doctests_of_libraries_of_one_name(ends: list[str], packages: list[str]) -> None:
    """The file of a doctest tells which package it is, and without one cargo's order."""
    lines = [*LIBRARIES, *(f"{DOC} > {end}" for end in ends)]
    suites = convert(stream(" > ".join(lines))).head["test-list"]["suites"]
    found = [(binary_id, len(names)) for binary_id, names in suites.items()]
    assert found == [(f"{package}::doc/s", 1) for package in packages]


TWO_TESTS = " > ".join(
    artifact("path+file:///w/s#0.1.0", "test", name, f"{name}-{number}123456789abcdef", True)
    for number, name in ((1, "s"), (2, "t"))
)
ONE_RAN = f"{TWO_TESTS} > {INTEGRATION} > suite 1 > started x > ok x > end"


@pytest.mark.parametrize(
    ("words", "options", "last"),
    [
        pytest.param(ONE_RAN, [], "(run) failed", id="before a binary"),
        pytest.param(ONE_RAN, ["--status", "0"], "x passed", id="cargo answers 0"),
        pytest.param(f"{ONE_RAN} > {OTHER} > suite 0 > end", [], "x passed", id="not cut"),
        pytest.param(
            f"{TWO_TESTS} > suite 1 > started x > ok x > end", [], "x passed", id="no announcement"
        ),
        pytest.param(
            f'{INTEGRATION} > ={{"type":"suite","ev|', [], "(run) failed", id="in an event"
        ),
        pytest.param(f'{INTEGRATION} > ={{"type":"suite"}}|', [], "s passed", id="after a value"),
    ],
)
def test_a_run_that_is_cut(words: str, options: list[str], last: str) -> None:
    """It has failed where a test binary that cargo built never ran, unless cargo answers 0."""
    brief = convert(stream(words), *options).brief()
    assert brief.split(" > finished ")[-1].split(" > ")[0] == last


# A test's end up to its output.
PASSES = '={ "type": "test", "name": "x", "event": "ok", "exec_time": 2.0, "stdout": "a\\n\\"'
FAILS = PASSES.replace('"ok"', '"failed"')


@pytest.mark.parametrize(
    ("lines", "result", "output"),
    [
        pytest.param([PASSES + "bINFO", '=c\\n" }'], "passed", 'a\n"bINFO\nc\n', id="a line"),
        pytest.param(
            [FAILS + 'b"INFO"', '=DEBUG {"x"}', '=c\\n" }'],
            "failed",
            'a\n"b"INFO"\nDEBUG {"x"}\nc\n',
            id="two lines",
        ),
        pytest.param(
            [PASSES + 'b"INFO"c\\u001b" }'], "passed", 'a\n"b"INFO"c\x1b', id="part of a line"
        ),
        pytest.param(
            [FAILS.replace("=", "=text ") + "bINFO", '=c", "message": "why" }'],
            "failed",
            'a\n"bINFO\nc',
            id="text before it",
        ),
    ],
)
def test_an_end_into_which_something_was_written(
    lines: list[str], result: str, output: str
) -> None:
    """The test ends as its line says, and has what it printed."""
    ended = ["=text > started y > ok y > end"]
    words = " > ".join([INTEGRATION, "suite 2 > started x", *lines, *ended])
    made = convert(stream(words))
    x_ended = f"started x 0 > finished x {result}"
    assert made.brief() == f"{x_ended} > started y 0 > finished y passed > 2 of 2"
    assert output_of(made.finished()[0]).decode() == output


def test_a_binary_that_crashes_while_it_prints() -> None:
    """A part of an end counts as one, and what comes after it is told of the crash."""
    made = convert(
        stream(
            f"{INTEGRATION} > suite 2 > started x > started y > {PASSES}b > =last words > {CRASHED}"
        )
    )
    started = "started x 0 > started y 1"
    assert made.brief() == f"{started} > finished x passed > finished y abort-11 > 2 of 2"
    assert any("last words" in error for error in errors_of(made.finished()[1]))


def test_a_part_of_an_end_of_a_test_that_does_not_run() -> None:
    """It isn't believed."""
    made = convert(stream(f"{INTEGRATION} > suite 1 > started y > {PASSES}b > ok y > end"))
    assert made.brief() == "started y 0 > finished y passed > 1 of 1"


# Lines whose parts come often, on which a search that begins again at each of them doesn't end.
LONG_LINES = {
    "Running": "=" + "Running " * 50000,
    "files": "=Running x (/a/" + "b-0123456789abcdef" * 20000 + "!",
    "Doc-tests": "=" + "Doc-tests " * 50000,
    "values": '={"type":' * 50000,
    "a cause": f"{FAILED} > =  process didn't exit successfully: `x` ({'a' * 300000}",
    "failures": "=" + "error: test failed, to rerun pass `" * 20000,
    "types": '={ "type": "test", ' * 20000,
    "names": '={ "type": "test", ' + '"name": "x", ' * 30000,
    "letters": "=" + "z" * 30_000_000,
}


@pytest.mark.parametrize("line", LONG_LINES.values(), ids=LONG_LINES.keys())
def test_a_line_takes_no_more_time_than_it_has_characters(line: str) -> None:
    """It is read within seconds, and the events beside it as without it."""
    begin = time.process_time()
    made = convert(stream(f"suite 1 > started x > {line} > ok x > end"))
    assert time.process_time() - begin < 3
    assert made.brief() == "started x 0 > finished x passed > 1 of 1"


def test_what_is_said_of_failures_and_of_an_ignored_test() -> None:
    """A panic and a crash are told, and why a test is ignored."""
    panic = "\nthread 'x' (1) panicked at src/lib.rs:1:2:\n\x1b[31mfirst\x1b[0m\nsecond\n"
    panic += "note: run with `RUST_BACKTRACE=1` environment"
    failure = {"name": "x", "stdout": panic, "message": "but\nnot so"}
    failed = "=" + text({"type": "test", "event": "failed", **failure})
    ignored = "=" + text({"type": "test", "event": "ignored", "name": "y", "message": "why"})
    made = convert(
        stream(
            f"{INTEGRATION} > suite 3 > started w > started x > {failed} > started y > {ignored} > "
            f"=last words > {CRASHED}"
        )
    )
    ended = "the test binary ended while this test ran"
    assert [errors_of(event) for event in made.finished()] == [
        ["but", "not so", "panicked at src/lib.rs:1:2: first", "second"],
        [
            f"{ended}: signal: 11, SIGSEGV: invalid memory reference",
            "No other test ran beside it.",
            "What the binary printed outside of tests:\nlast words",
        ],
    ]
    skipped = [value for value in made.values if value.get("kind") == "test-skipped"]
    assert [value["message"] for value in skipped] == ["why"]


def test_a_test_that_waited_for_a_thread_starts_where_it_ran() -> None:
    """It starts as much before the line of its end as it took."""
    ticks = iter(range(0, 10**10, 10**9))
    made = convert(stream("suite 1 > started x > = > = > ok x 1 > end"), source=ticks.__next__)
    assert [value["timestamp"]["secs"] for value in made.values[1:]] == [0, 3, 4, 6]


def test_lines_that_come_at_once() -> None:
    """No test runs beside one that started after its end, and each as long as it took."""
    ticks = iter(range(10**12, 2 * 10**12, 1))
    burst = (
        "suite 4 > started w > started x > ok w 2 > started y > ok x 9 > started z > ok y 1 > "
        "ok z 5 > end"
    )
    made = convert(stream(burst), source=ticks.__next__)
    assert made.brief().replace(" passed", "") == (
        "started x 0 > started w 1 > finished w > finished x > started z 0 > started y 1 > "
        "finished y > finished z > 4 of 4"
    )
    for event in made.finished():
        status = last_status(event)
        spans = event["timestamp"], status["start-time"], status["time-taken"]
        end, start, taken = (span["secs"] for span in spans)
        assert end - start == taken


CRASH = f"{INTEGRATION} > suite 1 > started x"
PASSED = "suite 1 > started x > ok x > end"


@pytest.mark.parametrize(
    ("words", "options", "status", "exit_code"),
    [
        pytest.param(CRASH, [], "completed", 101, id="a crash"),
        pytest.param(CRASH, ["--status", "0"], "completed", 0, id="a crash and 0"),
        pytest.param(CRASH, ["--status", "130"], "cancelled", 130, id="an interrupt"),
        pytest.param(PASSED, [], "completed", 0, id="a pass"),
        pytest.param(PASSED, ["--status", "3"], "completed", 3, id="a pass and 3"),
        pytest.param(NOT_BUILT, [], "completed", 101, id="a build that fails"),
        pytest.param(
            "suite 1 plus > ok a::t$x > end - plus", [], "completed", 0, id="a pass of nextest"
        ),
        pytest.param(
            "suite 1 plus > failed a::t$x > end - plus",
            [],
            "completed",
            100,
            id="a failure of nextest",
        ),
    ],
)
def test_the_exit_code_of_a_run(
    words: str, options: list[str], status: str, exit_code: int
) -> None:
    """What a run has for its status and its exit code."""
    ended = convert(stream(words), *options).head["status"]
    assert (ended["status"], ended["exit-code"]) == (status, exit_code)


@pytest.mark.parametrize(
    ("lines", "options", "status"),
    [
        pytest.param([], [], NOTHING, id="no line"),
        pytest.param([b"\n"], [], NOTHING, id="an empty line"),
        pytest.param([b"text\n", b"{}\n"], [], NOTHING, id="text"),
        pytest.param(
            stream(NOT_BUILT),
            ["--build-error", "status"],
            session_from_libtest.NOT_BUILT,
            id="a build that fails",
        ),
    ],
)
def test_lines_of_which_no_session_comes(
    lines: list[bytes], options: list[str], status: int
) -> None:
    """A status tells why."""
    with pytest.raises(NoSession) as caught:
        convert(lines, *options)
    assert caught.value.status == status


def test_a_run_that_is_broken_off() -> None:
    """It has a test that didn't end, and says so."""
    made = convert(stream(f"{INTEGRATION} > suite 2 > started x"), cancel_reason="interrupt")
    assert made.brief() == "started x 0 > run-begin-cancel interrupt > 0 of 2"
    missing = made.values[-1]["outstanding-not-seen"]
    assert (len(missing["not-seen"]), missing["total-not-seen"]) == (1, 2)
    assert made.head["status"] == {
        "status": "cancelled",
        "initial-run-count": 2,
        "passed": 0,
        "failed": 0,
        "exit-code": 130,
    }


def test_the_example() -> None:
    """The example's session is what is made of its stream."""
    made = convert(EXAMPLE.read_bytes().splitlines(keepends=True), "--status", "101")
    written = "".join(f"{text(value)}\n" for value in made.values)
    assert written == EXAMPLE.with_name("sums.session").read_text()


def test_a_name_that_is_not_utf_8() -> None:
    """Its other bytes are marked."""
    made = convert([b'{"type":"test","event":"ok","name":"a::t$\xff"}'])
    assert made.values[2]["test-instance"]["test-name"] == "\ufffd"


def test_an_output_that_is_not_utf_8() -> None:
    """Its bytes are kept, and spelled in what is said."""
    lines = [
        *stream(INTEGRATION),
        b"a\xffb\0\n",
        b"no end\xfe",
        *stream(f"{FAILED} > {CAUSE % 'exit status: 3'}"),
    ]
    made = convert(lines)
    (finished,) = made.finished()
    assert output_of(finished) == b"a\xffb\0\nno end\xfe"
    assert "a\\xffb\0" in made.said


def test_a_crash_after_bytes_that_are_not_utf_8() -> None:
    """They are spelled in its errors."""
    started = stream(f"{INTEGRATION} > suite 1 > started x")
    made = convert([*started, b"last \xff words\n", *stream(CRASHED)])
    (finished,) = made.finished()
    assert "last \\xff words" in errors_of(finished)[-1]


def test_a_target_without_libtest_that_prints_as_cargo_does() -> None:
    """What it prints is its output."""
    printed = (
        '{"reason":"build-finished","success":true}\n{"reason":"compiler-artifact"}\n'
        "error: test failed, to rerun pass `-p zzz --test nix`\n"
    )
    named = stream(f"{NAMED} > {INTEGRATION}")
    lines = [*named, *printed.encode().splitlines(keepends=True), *stream(OTHER)]
    finished = convert(lines).finished()[0]
    assert output_of(finished).decode() == printed
    assert last_status(finished)["result"] == "pass"


@pytest.mark.parametrize(
    ("printed", "is_refused"),
    [
        ("error: unexpected argument '--report-time' found", True),
        ("Unrecognized option: 'Z'", True),
        ("error: Found argument '-Z' which wasn't expected", True),
        ("an unknown flag, given --format json", True),
        ("no", False),
    ],
)
def test_a_target_that_refuses_the_words_for_events(printed: str, is_refused: bool) -> None:
    """Its failure says what to do."""
    ended = f"{FAILED} > {CAUSE % 'exit status: 2'}"
    (finished,) = convert(stream(f"{INTEGRATION} > ={printed} > {ended}")).finished()
    told = any("refuses the words" in error for error in errors_of(finished))
    assert told == is_refused


def test_a_crash_that_prints_much() -> None:
    """The begin and the end of it are told."""
    long = "z" * 9000
    words = f"suite 1 > started x > =it panics > ={long} > =it ends > {CRASHED}"
    (finished,) = convert(stream(f"{INTEGRATION} > {words}")).finished()
    said = errors_of(finished)[-1]
    assert "it panics" in said and said.endswith("it ends")
    assert "characters are left out" in said and len(said) <= 4200
