"""`--open` hands the page to a browser, here one that notes what it is given."""

from __future__ import annotations

import pathlib

import pytest

from tests import EXAMPLES
from tests.front_end import FrontEnd

FROM_LINES = ("test", "--from", str(EXAMPLES / "sums.libtest.json"))


@pytest.fixture
def opened(front_end: FrontEnd, program: pathlib.Path) -> pathlib.Path:
    """The file in which a browser notes the addresses that it is given."""
    noted, browser = front_end.folder / "noted", front_end.folder / "browser"
    browser.write_text(f'#!/bin/sh\nprintf "%s\\n" "$1" >> {noted}\n')
    browser.chmod(0o755)
    front_end.environment |= {"REZOVAMY": str(program), "BROWSER": f"{browser} %s"}
    return noted


def test_the_page_of_a_run_is_opened(front_end: FrontEnd, opened: pathlib.Path) -> None:
    done = front_end.run(*FROM_LINES, "--open")
    assert done.returncode == 101
    page = pathlib.Path(done.stdout.splitlines()[-1])
    assert page.read_text().startswith("<!DOCTYPE html>\n")
    assert opened.read_text() == f"{page.as_uri()}\n"


@pytest.mark.parametrize(
    ("words", "name"),
    [(("page", "--open"), None), (("history", "--page", "--open"), "history.html")],
)
def test_a_page_is_opened(
    front_end: FrontEnd, opened: pathlib.Path, words: tuple[str, ...], name: str | None
) -> None:
    front_end.run(*FROM_LINES)
    page = pathlib.Path(front_end.output(*words).strip())
    assert name is None or page.name == name
    assert opened.read_text() == f"{page.as_uri()}\n"


def test_a_browser_that_fails_is_told(front_end: FrontEnd, opened: pathlib.Path) -> None:
    front_end.run(*FROM_LINES)
    front_end.environment |= {"BROWSER": "/bin/false %s", "PATH": str(front_end.folder)}
    done = front_end.run("page", "--open")
    said = "no browser is found: name one in BROWSER, or open"
    assert done.returncode == 0
    assert done.stderr == f"rezovamy-runs: {said} {done.stdout.strip()} in it\n"
    assert not opened.exists()


@pytest.mark.parametrize(
    "words",
    [
        ("page", "--open", "--to", "-"),
        ("history", "--page", "-", "--open"),
        ("history", "t", "--open"),
    ],
)
def test_without_a_file_nothing_is_opened(
    front_end: FrontEnd, opened: pathlib.Path, words: tuple[str, ...]
) -> None:
    done = front_end.run(*words)
    assert done.returncode == 2
    assert "--open" in done.stderr
    assert not opened.exists()
