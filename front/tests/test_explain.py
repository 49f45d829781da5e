"""What is said of fault lines, of typed calls and of the built program's own."""

from __future__ import annotations

import dataclasses
import pathlib
import re
import subprocess

import pytest

from rezovamy_runs import recorder
from rezovamy_runs.faults import causes, file_kinds
from rezovamy_runs.faults.explain import TABLE, explain, explain_or_show
from tests import FRONT, TOP
from workshop.oracle.container import MAGIC, container, entries

SESSION = TOP / "crates/rezovamy/data/one_test.session"
RAISE_LIMIT = (
    "run.log.zst has 1915 bytes, and 1914 may be read: the option --read-limit 1915 allows it"
)


def said(line: str, *words: str, begins: bytes | None = None) -> str | None:
    """Return what is said of the line that a call of the program answered."""
    return explain(line, causes.Call(words, begins))


# Lines alone.


@pytest.mark.parametrize(
    ("line", "sentence"),
    [
        pytest.param(
            "FileTooLarge file_name=run.log.zst size=1915 limit=1914", RAISE_LIMIT, id="numbers"
        ),
        pytest.param(
            "SpanAlreadyOpen event=2 span=Test binary_id=alpha::a test_name=my t1",
            "event 2 starts the test alpha::a my t1, which runs already:"
            " the events contradict each other, so ask the tool that wrote them",
            id="names",
        ),
        pytest.param(
            "CountOutOfRange event=None",
            "all sizes together are past 64 bits: record less at once",
            id="the one form of a name",
        ),
        pytest.param("SessionTooLarge", None, id="a value is missing"),
        pytest.param("SessionTooLarge limit=many", None, id="a value is no number"),
    ],
)
def test_values_stand_in_the_sentence(line: str, sentence: str | None) -> None:
    assert explain(line) == sentence


@pytest.mark.parametrize(
    ("line", "begin"),
    [
        pytest.param(
            "CountOutOfRange event=3",
            "event 3 counts more than 64 bits: ",
            id="the other form of a name",
        ),
        pytest.param(
            "TestNotFound binary_id=a test_name=b\nc\n",
            "the test a b\\x0ac ran, and the test list of the head lacks it",
            id="a name with a line break is one line",
        ),
    ],
)
def test_a_sentence_begins_with_the_values(line: str, begin: str) -> None:
    assert (explain(line) or "").startswith(begin)


def test_no_line_of_the_program_is_shown() -> None:
    assert (
        explain_or_show("Odd\x1b[1m at=1\n")
        == "rezovamy says `Odd\\x1b[1m at=1`, which docs/CLI.md of its version explains"
    )


@pytest.mark.parametrize(("form", "sentence"), TABLE)
def test_each_form_has_its_own_sentence(form: str, sentence: str) -> None:
    line = form.replace("{file_name}", "out/a-stdout")
    line = re.sub(r"{(?:found|supported|last)}", "1.2", line)
    line = re.sub(r"{(?:binary_id|test_name|script_id)}", "x", line)
    line = re.sub(r"{[^}]*}", "7", line)
    explained = explain(line)
    assert explained is not None
    assert sentence.split("{")[0] in explained


# Lines with the words of the call.


@pytest.mark.parametrize(
    ("line", "words", "sentence"),
    [
        (
            "UnknownOption at=1",
            ["info", "my run.bundle"],
            "`info` reads standard input: rezovamy info < 'my run.bundle'",
        ),
        (
            "UnknownOption at=2",
            ["record", "b", "--group-buy", "slot"],
            "`record` has no option '--group-buy': --group-by is meant",
        ),
        (
            "UnknownOption at=1",
            ["trace", "--group-by=slot"],
            "an option and its value are two words: --group-by slot",
        ),
        (
            "UnknownOption at=1",
            ["info", "--max-output", "1"],
            "`info` has no option '--max-output': use --read-limit or --session-limit",
        ),
        (
            "UnknownCommand at=0",
            ["recrod"],
            "there is no command 'recrod': rezovamy record is meant",
        ),
        ("UnknownCommand at=0", ["--help", "record"], "--help stands alone: rezovamy --help"),
        (
            "BadNumber at=1",
            ["sample", "10001", "b"],
            "'10001' isn't a whole number from 0 to 10000: rezovamy sample 80 BUNDLE",
        ),
        (
            "MissingValue at=3",
            ["record", "b", "--group-by"],
            "--group-by has no value: it must be binary or slot",
        ),
        (
            "BadValue at=2",
            ["info", "--read-limit", "1k"],
            "--read-limit must be a number of bytes, not '1k'",
        ),
        (
            "RepeatedOption at=3",
            ["info", "--read-limit", "1", "--read-limit", "2"],
            "--read-limit comes twice: leave one out",
        ),
    ],
)
def test_words_that_are_mistyped(line: str, words: list[str], sentence: str) -> None:
    assert said(line, *words) == sentence


def test_words_that_do_not_fit_the_line() -> None:
    sentence = said("UnknownOption at=9", "info", "run.bundle") or ""
    assert sentence.startswith("word 9 isn't an option of the command")


# Lines with what the program was given.


@pytest.mark.parametrize(
    ("begins", "kind"),
    [
        (b"", "empty"),
        (b"nxtcont1\1\0\r", "a bundle"),
        (b"PK\3\4..", "a zip file"),
        (b'{"run-id":"1","nextest-version":"0.9.111"}\n', "a session"),
        (b'{"displayTimeUnit":"ms"', "a trace"),
        (b'{\n  "displayTimeUnit": "ms"', "a trace"),
        (b'{ "type": "suite", "event": "started"', "what a test run printed"),
        (b"   Compiling sums v0.1.0\n", "what a test run printed"),
        (b"\nrunning 1 test\ntest a ... ok\n", "what a test run printed"),
        (b"hello", None),
    ],
)
def test_kinds_of_files(begins: bytes, kind: str | None) -> None:
    assert file_kinds.kind_of(begins) == kind


@pytest.mark.parametrize(
    ("line", "words", "begins", "sentence"),
    [
        (
            "ParseHead",
            ["record", "b"],
            b"nxtcont1\1",
            "this is a bundle, not a session: it is recorded already,"
            " and rezovamy info, trace, replay or report reads it",
        ),
        (
            "ReadArchive fault=BadMagic",
            ["replay"],
            b'{"nextest-version":"0.9.111"}',
            "this is a session, not a bundle: rezovamy record BUNDLE < SESSION makes one,"
            " then rezovamy replay < BUNDLE",
        ),
        (
            "ReadArchive fault=BadMagic",
            ["trace"],
            b"",
            "standard input is empty: rezovamy trace < BUNDLE",
        ),
    ],
)
def test_one_file_for_another(line: str, words: list[str], begins: bytes, sentence: str) -> None:
    assert said(line, *words, begins=begins) == sentence


# Lines with places on the disk.


@pytest.mark.parametrize(
    ("words", "sentence"),
    [
        (["record", "{folder}"], "{folder} is a folder: name a file in it"),
        (
            ["sample", "1", "{folder}/a b/c"],
            "there is no folder {folder}/a b: mkdir -p '{folder}/a b'",
        ),
        (
            ["record", "{folder}/file/d/c"],
            "{folder}/file is a file, not a folder: name a file elsewhere",
        ),
        (
            ["record", "{folder}/" + "é" * 128],
            "the name of the file has more than 255 bytes: give it a shorter one",
        ),
        (["record", ""], "the path of the bundle is the empty word: name a file"),
    ],
)
def test_places_that_take_no_file(tmp_path: pathlib.Path, words: list[str], sentence: str) -> None:
    (tmp_path / "file").touch()
    placed = [word.format(folder=tmp_path) for word in words]
    assert said("BundleFault", *placed) == sentence.format(folder=tmp_path)


def test_a_place_that_takes_a_file(tmp_path: pathlib.Path) -> None:
    sentence = said("BundleFault", "record", f"{tmp_path}/c") or ""
    assert sentence.startswith("the bundle could not be written whole, ")


def test_no_room_left(monkeypatch: pytest.MonkeyPatch) -> None:
    monkeypatch.setattr(causes, "is_full", lambda folder: True)
    assert (
        said("BundleFault", "record", "/proc/run.bundle")
        == "no room left on /proc: make room there, or write the bundle elsewhere"
    )


# Calls of the program that the front end makes.


@pytest.mark.parametrize(
    ("words", "status", "line", "begins", "sentence"),
    [
        (
            ["trace"],
            12,
            "ReadArchive fault=BadMagic",
            b"",
            "rezovamy trace: standard input is empty: rezovamy trace < BUNDLE",
        ),
        (
            ["record", "b"],
            -25,
            "",
            None,
            "rezovamy record was ended by SIGXFSZ: see what `ulimit -a` allows, and try it again",
        ),
        (
            ["info"],
            9,
            "",
            None,
            "rezovamy info ended with status 9 and said nothing: try it again,"
            " or install the program again",
        ),
    ],
)
def test_what_the_program_answered(
    words: list[str], status: int, line: str, begins: bytes | None, sentence: str
) -> None:
    assert recorder.sentence(words, status, line, begins) == sentence


# The command `explain`, as it is called.


def called(*words: str, data: bytes = b"") -> tuple[int, str, str]:
    """Return the status of the command, and what it prints on either stream."""
    done = subprocess.run(
        [FRONT / "rezovamy-runs", "explain", *words],
        input=data,
        capture_output=True,
        check=False,
        timeout=60,
    )
    return done.returncode, done.stdout.decode(), done.stderr.decode()


@pytest.mark.parametrize(
    ("words", "data", "sentence"),
    [
        (
            ["UnknownOption", "at=1", "--", "rezovamy", "info", "run.bundle"],
            b"",
            "`info` reads standard input: rezovamy info < run.bundle",
        ),
        (
            ["-", "--input", str(SESSION)],
            b"ReadArchive fault=BadMagic\n",
            "this is a session, not a bundle: rezovamy record BUNDLE < SESSION makes one,"
            " then rezovamy info < BUNDLE",
        ),
    ],
)
def test_the_command_prints_the_sentence(words: list[str], data: bytes, sentence: str) -> None:
    assert called(*words, data=data) == (0, f"{sentence}\n", "")


@pytest.mark.parametrize(
    ("words", "status", "begin"),
    [
        ([], 2, "a line is wanted, as in "),
        (["NoSuchLine"], 1, "rezovamy has no fault line `NoSuchLine`: "),
        (["-"], 1, "standard input has no line: "),
        (["ParseHead", "--input", "/none"], 1, "/none can't be read: "),
    ],
)
def test_refusals_of_the_command_are_one_line(words: list[str], status: int, begin: str) -> None:
    found, printed, warned = called(*words)
    assert (found, printed, warned.count("\n")) == (status, "", 1)
    assert warned.startswith(f"rezovamy-runs: {begin}")


# What the built program answers is explained, and the advice holds.


@dataclasses.dataclass(frozen=True)
class Explained:
    """The built program, and a path for a bundle."""

    path: pathlib.Path
    bundle: pathlib.Path

    def answer(self, words: list[str], data: bytes = b"", output: str = "") -> tuple[str, str]:
        """Return the line that the program answers, and what is said of it.

        What it prints goes into the file `output`.
        """
        with open(output or "/dev/null", "wb") as stdout:
            done = subprocess.run(
                [self.path, *words],
                input=data,
                stdout=stdout,
                stderr=subprocess.PIPE,
                check=False,
                timeout=60,
            )
        line = done.stderr.decode()
        return line, (said(line, *words, begins=data[:100]) or "") if line else ""

    def record(self, *options: str, data: bytes | None = None) -> tuple[str, str]:
        """Record the session, or other bytes."""
        session = SESSION.read_bytes() if data is None else data
        return self.answer(["record", str(self.bundle), *options], session)

    def recorded(self) -> bytes:
        """Return the bundle of the session."""
        assert self.record() == ("", "")
        return self.bundle.read_bytes()


@pytest.fixture
def explained(program: pathlib.Path, tmp_path: pathlib.Path) -> Explained:
    """The built program, and a path for a bundle, where nothing is yet."""
    return Explained(program, tmp_path / "b")


def without_log(bundle: bytes) -> bytes:
    """Return a bundle that has no log."""
    return container(
        [(name, data) for name, data in entries(bundle).items() if name != b"run.log.zst"]
    )


@pytest.mark.program
def test_limits_are_raised_as_the_sentence_says(explained: Explained) -> None:
    line, sentence = explained.record("--read-limit", "1914")
    assert line == "FileTooLarge file_name=run.log.zst size=1915 limit=1914\n"
    assert sentence == RAISE_LIMIT
    assert explained.record("--read-limit", "1915") == ("", "")
    _, sentence = explained.answer(["info", "--session-limit", "9"], explained.bundle.read_bytes())
    assert sentence == "the bundle has more than 9 bytes: the option --session-limit raises that"


@pytest.mark.program
def test_a_bundle_in_place_of_a_session(explained: Explained) -> None:
    _, sentence = explained.record(data=explained.recorded())
    assert sentence.startswith("this is a bundle, not a session: ")


@pytest.mark.program
def test_a_session_in_place_of_a_bundle(explained: Explained) -> None:
    _, sentence = explained.answer(["info"], SESSION.read_bytes())
    assert sentence.startswith("this is a session, not a bundle: ")


@pytest.mark.program
def test_a_store_in_place_of_a_bundle(explained: Explained) -> None:
    _, sentence = explained.answer(["info"], entries(explained.recorded())[b"store.zip"])
    assert sentence.startswith("this isn't a bundle, since it has no entry manifest.json")


@pytest.mark.program
def test_damaged_bundles(explained: Explained) -> None:
    bundle = explained.recorded()
    listless = bundle.replace(b"meta/test-list.json", b"meta/test-lost.json")
    ends = "the bundle, or its store, ends at byte 3013 before it is whole"
    lacks_log = "the bundle has no run.log.zst, which `record` always writes"
    lacks_list = "the store of the bundle lacks meta/test-list.json"
    unlisted = "the test alpha::a t1 ran, and the test list of the head lacks it"
    for command, data, begin in (
        ("info", MAGIC + b"\2", "byte 8 begins no entry: "),
        ("info", bundle[:-1], ends),
        ("trace", without_log(bundle), lacks_log),
        ("replay", listless, lacks_list),
        ("report", bundle, unlisted),
    ):
        line, sentence = explained.answer([command], data)
        assert sentence.startswith(begin), (command, line)


@pytest.mark.program
def test_a_folder_in_place_of_a_bundle(explained: Explained) -> None:
    folder = explained.bundle.parent
    _, sentence = explained.answer(["record", str(folder)], SESSION.read_bytes())
    assert sentence == f"{folder} is a folder: name a file in it"


@pytest.mark.program
def test_standard_output_that_is_full(explained: Explained) -> None:
    _, sentence = explained.answer(["--version"], output="/dev/full")
    assert sentence.startswith("standard output could not be written: ")
