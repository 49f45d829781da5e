"""What a page knows of a run, and the file that is made of it."""

from __future__ import annotations

import base64
import dataclasses
import hashlib
import html.parser
import json
import pathlib
import re

import pytest

from rezovamy_runs import cli
from rezovamy_runs.faults.fault import Fault
from rezovamy_runs.page import document
from rezovamy_runs.page.data import PageAttempt, Outputs, PageData, State, PageTest, cut_middle
from tests import EXAMPLES
from tests.made import bundle_of, event, exit_code, finished, session_of, started, status
from tests.page_sessions import NASTY, nasty_session

DATA = re.compile(r'<script type="application/json" id="data">(.*?)</script>')
LOADING = r"fetch\(|XMLHttpRequest|WebSocket|import\(|innerHTML|eval\("


@dataclasses.dataclass(frozen=True)
class Page:
    """The page of a run, and the value that its script reads."""

    text: str
    value: PageData

    @property
    def tests(self) -> dict[str, PageTest]:
        """The tests by their names."""
        return {test["name"]: test for test in self.value["tests"]}


def page_of(session: str, folder: pathlib.Path) -> Page:
    """Return the page of a session."""
    path = folder / "run.bundle"
    path.write_bytes(bundle_of(session))
    text = document.page_of(path)
    return Page(text, json.loads(DATA.findall(text)[0]))


@pytest.fixture
def page(tmp_path: pathlib.Path) -> Page:
    """Return the page of a run with all that a run may have."""
    return page_of(nasty_session(), tmp_path)


# The value.


def test_tests_have_their_states(page: Page) -> None:
    assert {name: test["state"] for name, test in page.tests.items()} == {
        "database": "script",
        "a</script>": "failed",
        "flaky": "flaky",
        "hangs": "unfinished",
        "later": "skipped",
    }
    assert page.value["binaries"] == ["alpha"]
    skipped = {"binary": 0, "name": "later", "state": "skipped", "reason": "ignored"}
    assert page.tests["later"] == skipped


def test_attempts_have_slices_in_microseconds_since_the_begin(page: Page) -> None:
    first, second = page.tests["flaky"]["attempts"]
    assert (first["slot"], first["slices"]) == (1, [1_000_000, 2_000_000])
    assert (first["bad"], first["detail"]) == (True, "exit code 101")
    assert (second["slot"], second["slices"]) == (3, [6_000_000, 7_000_000])
    assert "bad" not in second


def test_a_pause_cuts_an_attempt(page: Page) -> None:
    (failing,) = page.tests["a</script>"]["attempts"]
    slices = [1_000_000, 3_000_000, 5_000_000, 8_000_000]
    assert (failing["slot"], failing["slices"], failing["seconds"]) == (0, slices, 5)


def test_a_time_is_without_the_pause_whatever_was_recorded(tmp_path: pathlib.Path) -> None:
    events = [
        started(0, "paused", 0),
        event("run-paused", 1, setup_scripts_running=0, running=1),
        event("run-continued", 4, setup_scripts_running=0, running=1),
        finished(7, "paused", status(0, 7)),
        started(7, "whole", 0),
        finished(9, "whole", status(7, 1.5)),
    ]
    tests = page_of(session_of(events), tmp_path).tests
    assert [tests[name]["attempts"][0]["seconds"] for name in ("paused", "whole")] == [4, 1.5]


def test_an_attempt_without_an_end_has_no_length(page: Page) -> None:
    (hanging,) = page.tests["hangs"]["attempts"]
    slices = [1_500_000, 3_000_000, 5_000_000, 9_000_000]
    assert (hanging["result"], hanging["slices"]) == ("unfinished", slices)
    assert "seconds" not in hanging


def test_a_setup_script_has_a_slice(page: Page) -> None:
    (script,) = page.tests["database"]["attempts"]
    assert (script["slot"], script["slices"]) == (0, [0, 1_000_000])


def test_each_output_is_there_once(page: Page) -> None:
    assert [output["size"] for output in page.value["outputs"]] == [6, len(NASTY), 0]
    first, second = page.tests["flaky"]["attempts"]
    assert [tuple(pair) for pair in first["outputs"]] == [("stdout", 1)]
    assert [tuple(pair) for pair in second["outputs"]] == [("stdout", 0), ("stderr", 2)]
    assert page.value["outputs"][1]["text"].encode("utf-8", "surrogateescape") == NASTY


def test_the_run_is_told(page: Page) -> None:
    run = page.value["run"]
    assert (run["profile"], run["seconds"], run["args"]) == ("ci", 9, ["--no-fail-fast"])
    assert run["ended"] == "completed, exit code 101"
    assert [tuple(pair) for pair in page.value["pauses"]] == [(3_000_000, 5_000_000)]
    marks = [tuple(pair) for pair in page.value["marks"]]
    assert marks == [(9_000_000, "cancelled: interrupt")]
    cancelled = "The run was cancelled: interrupt."
    assert page.value["notes"] == [cancelled]
    assert page.value["unnamed"] == 2


def test_failures_stand_by_their_causes(page: Page) -> None:
    # The script is at place 0, and the tests are in the order in which they started.
    assert page.value["causes"] == [
        {"title": "failed, exit code 101", "tests": [1]},
        {"title": "never ended", "tests": [3]},
    ]


def test_a_run_without_an_end_says_so(tmp_path: pathlib.Path) -> None:
    page = page_of((EXAMPLES / "pause_and_retry.session").read_text(), tmp_path)
    note = "The run was broken off, or the recording of it was: it has no end."
    assert page.value["notes"] == [note]


def test_a_run_without_events_has_a_page(tmp_path: pathlib.Path) -> None:
    value = page_of(session_of([]), tmp_path).value
    assert (value["tests"], value["end"]) == ([], 0)


# Long outputs.


@pytest.mark.parametrize(
    ("data", "most", "expected"),
    [
        (b"0123456789", 10, (b"0123456789", b"", 0)),
        (b"0123456789", 4, (b"01", b"89", 6)),
        (b"0123456789", 0, (b"", b"", 10)),
    ],
)
def test_the_middle_goes(data: bytes, most: int, expected: tuple[bytes, bytes, int]) -> None:
    assert cut_middle(data, most) == expected


@pytest.mark.parametrize(
    ("data", "most", "expected"),
    [
        ("aé--éa".encode(), 4, (b"a", b"a", 6)),
        ("a€--€a".encode(), 6, (b"a", b"a", 8)),
        ("é--é".encode(), 4, ("é".encode(), "é".encode(), 2)),
        (b"a\xff--\xffa", 4, (b"a", b"\xffa", 3)),
    ],
)
def test_no_character_is_cut(data: bytes, most: int, expected: tuple[bytes, bytes, int]) -> None:
    assert cut_middle(data, most) == expected


def test_a_note_says_what_is_left_out() -> None:
    outputs = Outputs(most_each=200)
    outputs.place(b"a" * 150 + b"b" * 150)
    text = "a" * 100 + "\n\n... [100 bytes are left out] ...\n\n" + "b" * 100
    note = "100 bytes in the middle are left out here. `rezovamy-runs show` prints them."
    assert outputs.kept == [{"size": 300, "text": text, "note": note}]


def test_the_recording_may_have_cut_it_before() -> None:
    outputs = Outputs()
    outputs.place(b"ab", 2_000_000)
    note = "It was cut in the recording: of 2,000,000 bytes 2 were kept."
    assert outputs.kept == [{"size": 2_000_000, "text": "ab", "note": note}]


def test_all_of_them_have_room_together() -> None:
    outputs = Outputs(most_all=250)
    for letter in b"abc":
        outputs.place(bytes([letter]) * 200)
    assert [len(output["text"]) for output in outputs.kept] == [200, 0, 0]
    note = "This page has no more room for outputs. `rezovamy-runs show` prints it."
    assert outputs.kept[2] == {"size": 200, "text": "", "note": note}


def test_failures_have_room_first(tmp_path: pathlib.Path) -> None:
    session = session_of(
        [
            started(0, "passes", 0),
            finished(1, "passes", status(0, 1, stdout=b"p" * 300)),
            started(1, "fails", 0),
            finished(2, "fails", status(1, 1, exit_code(), stdout=b"f" * 300)),
        ]
    )
    outputs = page_of(session, tmp_path).value["outputs"]
    assert [output["text"][0] for output in outputs] == ["f", "p"]


def test_what_has_no_room_is_counted(
    tmp_path: pathlib.Path, monkeypatch: pytest.MonkeyPatch
) -> None:
    events = []
    for number, letter in enumerate(b"ABCD"):
        ended = status(number, 0.5, stdout=bytes([letter]) * 150_000)
        events.append(started(number, f"t{number}", 0))
        events.append(finished(number + 0.5, f"t{number}", ended))
    monkeypatch.setattr(document, "Outputs", lambda most: Outputs(most, 300_000))
    value = page_of(session_of(events), tmp_path).value
    assert [len(output["text"]) for output in value["outputs"]] == [150_000, 150_032, 0, 0]
    note = "2 different outputs have no room in this page. `rezovamy-runs show` prints all."
    assert value["notes"] == [note]


# The file.


class Addresses(html.parser.HTMLParser):
    """What a page leads to or loads."""

    def __init__(self) -> None:
        super().__init__()
        self.found: list[str | None] = []

    def handle_starttag(self, tag: str, attrs: list[tuple[str, str | None]]) -> None:
        """Take the addresses and scripts in the attributes of an element."""
        leading = ("src", "href", "srcset", "action", "data", "style")
        self.found += [value for name, value in attrs if name in leading or name.startswith("on")]


def test_nothing_ends_the_script_early(page: Page) -> None:
    text = page.text
    assert (text.count("<script"), text.count("</script>"), text.count("<!--")) == (2, 2, 0)
    assert "\u2028" not in text
    assert "\u2029" not in text
    assert page.value["tests"][1]["name"] == "a</script>"


def test_json_is_ascii() -> None:
    written = document.embedded_json("</script>\u2028&<!--\udcff")
    assert written == '"\\u003c/script\\u003e\\u2028\\u0026\\u003c!--\\udcff"'


def test_nothing_is_loaded(page: Page) -> None:
    addresses = Addresses()
    addresses.feed(page.text)
    assert addresses.found == ["data:,", "#tests"]
    assert not re.search(r"url\(|@import", document.part("style.css"))
    script = "".join(document.part(f"{name}.js") for name in document.SCRIPTS)
    assert not re.search(LOADING, script)


def test_the_policy_knows_the_script_and_the_style(page: Page) -> None:
    meta = r'http-equiv="Content-Security-Policy" content="([^"]*)"'
    (policy,) = re.findall(meta, page.text)
    for tag in ("script", "style"):
        inner = re.findall(rf"<{tag}>(.*?)</{tag}>", page.text, re.S)[0]
        digest = base64.b64encode(hashlib.sha256(inner.encode()).digest()).decode()
        assert f"{tag}-src 'sha256-{digest}'" in policy
    assert policy.startswith("default-src 'none'; ")


def test_all_parts_are_used() -> None:
    used = {"page.html", "style.css"} | {f"{name}.js" for name in document.SCRIPTS}
    assert {path.name for path in document.PARTS.iterdir()} == used


# The title.


def title_of(tests: list[PageTest], profile: str = "ci", unnamed: int = 0) -> str:
    """Return the title of a page with these tests, and with some that never started."""
    run: PageData = {
        "run": {
            "id": "",
            "profile": profile,
            "when": "now",
            "seconds": 0,
            "status": "",
            "exit": None,
            "ended": "",
            "args": [],
            "bundle": "",
        },
        "facts": [],
        "source": None,
        "binaries": [],
        "commands": [],
        "tests": tests,
        "unnamed": unnamed,
        "causes": [],
        "outputs": [],
        "notes": [],
        "pauses": [],
        "marks": [],
        "end": 0,
        "bands": [],
        "past": None,
    }
    return document.page_title(run)


def made_tests(states: tuple[State, ...], result: str, bad: bool) -> list[PageTest]:
    """Return a test of each state, with an attempt that ended so."""
    attempt: PageAttempt = {"number": 1, "total": 1, "result": result}
    if bad:
        attempt["bad"] = True
    return [{"name": "t", "state": state, "attempts": [attempt]} for state in states]


def test_the_title_tells_how_it_went(page: Page) -> None:
    assert re.search(r"<title>1 failed · ci · \d{4}-", page.text)


def test_the_profile_in_the_title_is_short_and_harmless() -> None:
    title = title_of([], "a\u202eb\x1b" + "c" * 1000)
    assert re.fullmatch(r"0 passed · a\\u\{202e\}b\\x1bc+ \.\. · now", title)
    assert len(title) < 90


@pytest.mark.parametrize(
    ("states", "result", "bad", "told"),
    [
        (("unfinished", "passed", "failed"), "pass", False, "1 failed"),
        (("unfinished", "passed", "flaky"), "pass", False, "1 unfinished"),
        (("not-started", "not-started", "passed"), "pass", False, "2 never started"),
        (("script", "skipped"), "fail", True, "1 setup failed"),
        (("script",), "unfinished", False, "1 unfinished"),
        (("script", "passed", "flaky"), "pass", False, "2 passed"),
        ((), "pass", False, "0 passed"),
    ],
)
def test_the_title_calls_no_broken_run_passed(
    states: tuple[State, ...], result: str, bad: bool, told: str
) -> None:
    assert title_of(made_tests(states, result, bad)) == f"{told} · ci · now"


# The command.


@dataclasses.dataclass(frozen=True)
class Command:
    """The command `page` in a folder with a run."""

    bundle: pathlib.Path
    printed: pytest.CaptureFixture[str]

    @property
    def folder(self) -> pathlib.Path:
        """The folder of the run."""
        return self.bundle.parent

    def run(self, *words: str) -> tuple[int, str]:
        """Return the status of the command, and what it prints."""
        return cli.run(["page", *words]), self.printed.readouterr().out


@pytest.fixture
def command(
    tmp_path: pathlib.Path, monkeypatch: pytest.MonkeyPatch, capsys: pytest.CaptureFixture[str]
) -> Command:
    """Return the command in a folder with a run."""
    bundle = tmp_path / "550e8400-e29b-41d4-a716-446655440000.bundle"
    bundle.write_bytes(bundle_of(nasty_session()))
    monkeypatch.setenv("REZOVAMY_RUNS", str(tmp_path))
    return Command(bundle, capsys)


def test_the_last_run_has_its_page_beside_it(command: Command) -> None:
    path = command.bundle.with_suffix(".html")
    assert command.run() == (0, f"{path}\n")
    assert path.read_text().startswith("<!DOCTYPE html>")
    files = sorted(file.name for file in command.folder.iterdir())
    assert files == [command.bundle.name, path.name]


def test_a_file_or_standard_output_takes_it(command: Command) -> None:
    path = command.folder / "page.html"
    assert command.run("550e", "--to", str(path)) == (0, f"{path}\n")
    assert command.run("--to", "-") == (0, path.read_text())


def test_a_folder_that_is_missing_is_told(command: Command) -> None:
    path = f"{command.folder}/none/page.html"
    line = f"the page can't be written to {path}: No such file or directory"
    with pytest.raises(Fault, match=f"^{re.escape(line)}; name another file with --to$"):
        command.run("--to", path)


def test_a_full_device_is_told(command: Command) -> None:
    line = "the page can't be written to /dev/full: No space left on device"
    with pytest.raises(Fault, match=f"^{line}; name another file with --to$"):
        command.run("--to", "/dev/full")


def test_a_page_goes_with_its_run(command: Command) -> None:
    command.run()
    for keep, left in (("1", 2), ("0", 0)):
        cli.run(["prune", "--keep", keep])
        assert len(list(command.folder.iterdir())) == left


def test_words_that_are_wrong_are_a_line(command: Command) -> None:
    with pytest.raises(Fault) as caught:
        command.run("--most-output", "-1")
    assert caught.value.status == 2
