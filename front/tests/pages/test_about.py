"""What a page in Chromium says of its run, and the ways from a test to its source and command."""

from __future__ import annotations

import pytest

from rezovamy_runs.store import notes as run_notes
from tests import EXAMPLES
from tests.made import exit_code, finished, session_of, started, status
from tests.opened_page import Page
from tests.page_sessions import with_binary
from tests.test_page_about import COMMIT, NOTES

pytestmark = pytest.mark.browser

SUMS = (EXAMPLES / "sums.session").read_text()


def open_with_notes(page: Page, session: str, fragment: str = "") -> None:
    """Open the page of a run that has notes."""
    run_notes.write(NOTES, run_notes.path_beside(page.folder / "run.bundle"))
    page.open(session, fragment=fragment)


def test_the_top_says_what_run_it_is(page: Page) -> None:
    open_with_notes(page, SUMS)
    told = page.texts(
        "[...document.querySelectorAll('#known-by > span')].map((one) => one.textContent)"
    )
    assert told == [
        "Project: sums",
        "Branch: main",
        "Commit: 1272b7ea93c1, with changes",
        "CI job: GitHub tests",
        "Group: pr-7, shard 2/4",
        "Host: builder",
        "Command: rezovamy-runs test 'a b'",
        "Build: 1m 05s",
        "Rust: 1.92.0",
    ]
    assert page.member("#known-by a", "href") == "https://ci.example/1"
    about = page.inner(".about")
    for text in ("rezovamy-runs test 'a b'", "1m 05s", "1.92.0", "good"):
        assert text in about
    page.open(SUMS, wide=420)
    assert page.fits(420)
    # A narrow window has these below alone.
    assert page.inner("#known-by").endswith("builder")
    assert "rezovamy-runs test 'a b'" in page.inner(".about")


def test_a_run_without_notes_has_nothing_more_at_the_top(page: Page) -> None:
    page.open(SUMS)
    assert page.content("#known-by") == ""


def test_a_place_in_an_output_leads_to_its_source(page: Page) -> None:
    open_with_notes(page, SUMS, "#sums%3A%3Awrong/expects_a_product")
    links = "[...document.querySelectorAll('{} a')].map((one) => one.innerText + ' ' + one.href)"
    link = f"tests/wrong.rs:7:5 https://code.example/{COMMIT}/tests/wrong.rs#L7"
    assert page.texts(links.replace("{}", ".error")) == [link]
    assert page.texts(links.replace("{}", "pre")) == [link]


@pytest.mark.parametrize(
    ("printed", "links"),
    [
        ("at src/a b.rs:1", ["b.rs:1"]),
        ("/rustc/abc/library/core.rs:1:2", []),
        ("~/.cargo/x.rs:3", []),
        ("(a/b-c.rs:10)", ["a/b-c.rs:10"]),
        ("at ../other/x.rs:3", []),
        ("at ./a/x.rs:3", ["./a/x.rs:3"]),
        ("12:30:15 https://x.example:80", []),
    ],
)
def test_only_places_of_the_project_are_links(page: Page, printed: str, links: list[str]) -> None:
    ended = status(0, 1, exit_code(), stdout=printed.encode())
    open_with_notes(page, session_of([started(0, "t"), finished(1, "t", ended)]), "#alpha/t")
    assert page.content("pre") == printed
    found = "[...document.querySelectorAll('pre a')].map((one) => one.innerText)"
    assert page.texts(found) == links


def test_a_place_in_a_backtrace_leads_to_its_source(page: Page) -> None:
    ended = status(0, 1, exit_code(), stdout=b"             at ./tests/wrong.rs:7:5\n")
    open_with_notes(page, session_of([started(0, "t"), finished(1, "t", ended)]), "#alpha/t")
    assert page.member("pre a", "href") == f"https://code.example/{COMMIT}/tests/wrong.rs#L7"


def test_without_a_pattern_no_place_is_a_link(page: Page) -> None:
    page.open(SUMS, fragment="#sums%3A%3Awrong/expects_a_product")
    assert page.number("document.querySelectorAll('#details a').length") == 0


@pytest.mark.parametrize(
    ("binary", "name", "command"),
    [
        ("sums", "tests::adds", "rezovamy-runs test -- -p sums --lib -- --exact tests::adds"),
        ("sums", "it's", """rezovamy-runs test -- -p sums --lib -- --exact 'it'"'"'s'"""),
        ("sums", "-x", "rezovamy-runs test -- -p sums --lib -- --exact -- -x"),
        ("sums::wrong", "wrong", "rezovamy-runs test -- -p sums --test wrong"),
        ("sums::doc/sums", "sums", "rezovamy-runs test -- -p sums --doc"),
    ],
)
def test_a_test_has_the_command_that_runs_it(
    page: Page, binary: str, name: str, command: str
) -> None:
    events = [started(0, name), finished(1, name, status(0, 1))]
    page.open(session_of([with_binary(binary, one) for one in events]))
    page.click(".row")
    assert page.content(".command code") == command


def test_what_cargo_has_no_words_for_has_no_command(page: Page) -> None:
    events = [started(0, "(build)"), finished(1, "(build)", status(0, 1, exit_code()))]
    page.open(session_of([with_binary("(cargo)", one) for one in events]))
    page.click(".row")
    assert page.number("document.querySelectorAll('.command').length") == 0


def test_what_ran_beside_a_crash_and_passed_is_told(page: Page) -> None:
    said = "ran beside a crash: its process was ended by signal 6 while it and b ran; it passed"
    output = {"output": {"output": {"combined": ""}, "errors": [said]}}
    ended = status(0, 1, output=output)
    page.open(session_of([started(0, "a"), finished(1, "a", ended)]))
    assert page.inner("h3") == "1 ran beside a crash, and passed alone"
    assert page.inner(".item .why") == said
