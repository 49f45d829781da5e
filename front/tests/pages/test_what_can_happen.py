"""What the terminal, the recording, the page and the XML say of what happens to a real run.

The rows are those of the table in docs/FRONT_END.md; each is a test of `examples/endings`.
"""

from __future__ import annotations

import json
import pathlib
import re
import signal
import time
from typing import NamedTuple
from xml.etree import ElementTree

import pytest

from rezovamy_runs.bundles import bundle
from rezovamy_runs.model import Attempt, Run
from tests.front_end import FrontEnd
from tests.opened_page import Page
from tests.stopped_runs import is_at, is_stopped, started, wait_until

pytestmark = [pytest.mark.browser, pytest.mark.cargo, pytest.mark.program]

TESTS = ("--", "-p", "ways", "--test", "ends", "--", "--exact")
ONE_BY_ONE = ("--test-threads", "1")
# A line of the terminal about a test: a word in capitals, perhaps a time, the test, and what else.
LINE = re.compile(r"([A-Z]+(?:[- ][A-Z]+)?) (?:\[[^]]*\] )?ways::ends (\w+)(?: \((.*)\))?")
RESULTS = "[...document.querySelectorAll('#details .result')].map((one) => one.textContent)"
HEADINGS = "[...document.querySelectorAll('h3')].map((one) => one.textContent)"
WARNINGS = "[...document.querySelectorAll('.warning')].map((one) => one.textContent)"
EXITED = "the process exited with status 7 before the test ended"
ERROR = 'Error: "no luck"'
HELD = "its process held what it printed, which is lost"
CODE = "test failure with exit code"
# In microseconds, as a run has its pauses.
SECOND = 1_000_000


class Told(NamedTuple):
    """What is said of a test: each line, each attempt, and each element of its case.

    A recorded attempt has its result, what is said of that, and its errors.
    """

    terminal: tuple[str, ...] = ()
    recording: tuple[str, ...] = ()
    page: tuple[str, ...] = ()
    xml: tuple[str, ...] = ()


PASSED = Told((), ("pass",), ("passed",), ())
FAILED = Told(
    ("FAIL: exit code 101",),
    (f"fail: exit code 101: {ERROR}",),
    ("failed, exit code 101",),
    (f"failure: {CODE} 101: {ERROR}",),
)
EXITS = Told(
    ("FAIL: exit code 7",),
    (f"fail: exit code 7: {EXITED}",),
    ("failed, exit code 7",),
    (f"failure: {CODE} 7: {EXITED}",),
)
BESIDE = (
    "ran beside a crash: its process was ended by signal 9 while it and is_killed ran; "
    "by itself it passed"
)


def never_started(why: str = "") -> Told:
    """Return what is said of a test that never started, because the run was broken off or not."""
    broken_off = f"; the run was broken off ({why})" if why else ""
    never = "error: unfinished test: the test was announced, and never started"
    return Told(("NEVER STARTED",), (), (), (f"{never}{broken_off}",))


CASES = {
    "ways of ending": (
        (),
        {
            "passes": PASSED,
            "answers_an_error": FAILED,
            "exits_with_7": EXITS,
            "aborts": Told(
                ("ABORT: signal 6, SIGABRT",),
                ("abort: signal 6, SIGABRT",),
                ("aborted, signal 6, SIGABRT",),
                ("failure: test abort: test abort",),
            ),
            "leaks_a_child": Told((), ("leak",), ("passed, with a leak",), ()),
            "is_ignored": Told(
                (), (), (), ("skipped: Skipped: test does not match the run-ignored option",)
            ),
        },
    ),
    "retries": (
        ("--retries", "1"),
        {
            "answers_an_error": Told(
                ("FAIL: attempt 1 of 2, exit code 101", "FAIL: attempt 2 of 2, exit code 101"),
                FAILED.recording * 2,
                FAILED.page * 2,
                (*FAILED.xml, f"rerunFailure: {CODE} 101: {ERROR}"),
            ),
            "passes_at_the_second_try": Told(
                ("FAIL: attempt 1 of 2, exit code 101",),
                (
                    "fail: exit code 101: panicked at ways/tests/ends.rs:123:5: the first try",
                    "pass",
                ),
                ("failed, exit code 101", "passed"),
                (f"flakyFailure: {CODE} 101: panicked at ways/tests/ends.rs:123:5: the first try",),
            ),
        },
    ),
    "a timeout": (
        ("--timeout", "1"),
        {
            "hangs": Told(
                ("TIMEOUT",),
                ("timeout, slow",),
                ("timed out",),
                ("failure: test timeout: test timeout",),
            )
        },
    ),
    "a slow test": (
        ("--slow-after", "0.1"),
        {"a_moment": Told(("SLOW",), ("pass, slow",), ("passed",), ())},
    ),
    "a test that can't be started": (
        ("--setup", "rights=chmod a-x target/debug/deps/ends-*"),
        {
            "passes": Told(
                ("EXEC-FAIL",),
                ("exec-fail: Permission denied",),
                ("could not be started",),
                ("error: execution failure: Permission denied",),
            )
        },
    ),
    "a setup script that fails": (
        ("--setup", "database=exit 3"),
        {"passes": never_started("setup-script-failure")},
    ),
    "fail fast": (
        ("--fail-fast", *ONE_BY_ONE),
        {"exits_with_7": EXITS, "passes": never_started("test-failure")},
    ),
    "a timeout of a shared process": (
        ("--shared", "--timeout", "3"),
        {
            "a_moment": PASSED,
            "hangs": Told(
                ("TIMEOUT",),
                (f"timeout, slow: {HELD}",),
                ("timed out",),
                (f"failure: test timeout: {HELD}",),
            ),
            "passes": PASSED,
        },
    ),
    "a crash of a shared process": (
        ("--shared",),
        {
            "a_moment": Told((), (f"pass: {BESIDE}",), ("passed",), ()),
            "is_killed": Told(
                ("ABORT: signal 9, SIGKILL",),
                ("abort: signal 9, SIGKILL",),
                ("aborted, signal 9, SIGKILL",),
                ("failure: test abort: test abort",),
            ),
            "passes": never_started(),
        },
    ),
}


def lines_of(printed: str) -> dict[str, tuple[str, ...]]:
    """Return what is printed of each test, without times."""
    found: dict[str, tuple[str, ...]] = {}
    for word, name, more in filter(None, map(parts_of, printed.splitlines())):
        found[name] = (*found.get(name, ()), f"{word}: {more}" if more else word)
    return found


def parts_of(line: str) -> tuple[str, str, str | None] | None:
    """Return the word, the test and what else is said in a line; None if it is no such line."""
    found = LINE.fullmatch(line)
    return (found[1], found[2], found[3]) if found else None


def recorded(attempt: Attempt) -> str:
    """Return what is recorded of an attempt."""
    slow = ", slow" if attempt.is_slow else ""
    error = " ".join((attempt.errors or "").split())
    return ": ".join(filter(None, [f"{attempt.result}{slow}", attempt.detail, error]))


def elements_of(path: pathlib.Path) -> dict[str, tuple[str, ...]]:
    """Return the elements of each case of an XML, but for outputs."""
    return {
        str(case.get("name")): tuple(
            ": ".join(filter(None, [part.tag, part.get("type"), part.get("message")]))
            for part in case
            if not part.tag.startswith("system-")
        )
        for case in ElementTree.parse(path).iter("testcase")
    }


def at_the_end(stdout: str) -> str:
    """Return which tests never started, out of what is printed at the end of a run."""
    lines = stdout.splitlines(keepends=True)
    return "".join(line for line in lines if line.startswith("NEVER STARTED"))


def last_run(endings: FrontEnd) -> Run:
    """Return the run that was recorded last."""
    return bundle.read_run(json.loads(endings.output("list", "--json"))[0]["path"])


def told(endings: FrontEnd, page: Page, printed: str, names: list[str]) -> dict[str, Told]:
    """Return what is said of tests of the last run."""
    run, lines = last_run(endings), lines_of(printed)
    attempts = {test.name: test.attempts for test in run.tests}
    paths = endings.runs.parent
    endings.output("page", "--to", str(paths / "page.html"))
    endings.output("junit", "--to", str(paths))
    elements = elements_of(paths / "junit.xml")
    found = {}
    for name in names:
        page.open_at((paths / "page.html").as_uri(), fragment=f"#ways%3A%3Aends/{name}")
        seen = tuple(page.texts(RESULTS))
        tries = tuple(map(recorded, attempts.get(name, ())))
        found[name] = Told(lines.get(name, ()), tries, seen, elements.get(name, ()))
    return found


@pytest.mark.parametrize("case", CASES)
def test_what_is_said_of_a_test(
    endings: FrontEnd, page: Page, tmp_path: pathlib.Path, case: str
) -> None:
    options, expected = CASES[case]
    endings.environment["MARKER"] = str(tmp_path / "marker")
    endings.environment["RUST_TEST_THREADS"] = "2"
    done = endings.run("test", *options, *TESTS, *expected)
    for binary in endings.folder.glob("target/debug/deps/ends-*"):
        binary.chmod(0o755)
    assert told(endings, page, done.stderr + at_the_end(done.stdout), list(expected)) == expected


@pytest.mark.parametrize(
    ("number", "passed_on", "reason", "status"),
    [
        (signal.SIGINT, "signal 2, SIGINT", "interrupt", 130),
        (signal.SIGTERM, "signal 15, SIGTERM", "signal", 143),
        (signal.SIGHUP, "signal 15, SIGTERM", "signal", 143),
    ],
)
def test_what_is_said_of_a_run_that_a_signal_ends(
    endings: FrontEnd,
    page: Page,
    number: signal.Signals,
    passed_on: str,
    reason: str,
    status: int,
) -> None:
    """What runs is told to end, and what hasn't started never does."""
    with started(endings, "test", *ONE_BY_ONE, *TESTS, "hangs", "passes") as run:
        run.wait_for("hangs --logfile")
        run.process.send_signal(number)
        out, err = run.process.communicate()
    assert run.process.returncode == status
    cancelled = "the run was cancelled while this test ran"
    assert told(endings, page, err + at_the_end(out), ["hangs", "passes"]) == {
        "hangs": Told(
            (f"ABORT: {passed_on}",),
            (f"abort: {passed_on}: {cancelled}",),
            (f"aborted, {passed_on}",),
            (f"failure: test abort: {cancelled}",),
        ),
        "passes": never_started(reason),
    }
    page.open_at(page.address.partition("#")[0])
    assert page.texts(WARNINGS) == [f"The run was cancelled: {reason}."]
    assert "1 never started" in page.texts(HEADINGS)


def test_what_is_said_of_a_pause(endings: FrontEnd, page: Page) -> None:
    """Nothing on the terminal and in the XML. No timeout counts it, and the page has a gap."""
    words = ("test", "--timeout", "1.5", *TESTS, "hangs")
    with started(endings, *words) as run:
        run.wait_for("hangs --logfile")
        wait_until(lambda: is_at(endings, unended=1))
        run.process.send_signal(signal.SIGTSTP)
        wait_until(lambda: is_stopped(run.process.pid))
        time.sleep(2)
        run.process.send_signal(signal.SIGCONT)
        _, err = run.process.communicate()
    assert told(endings, page, err, ["hangs"])["hangs"] == Told(
        ("TIMEOUT",), ("timeout, slow",), ("timed out",), ("failure: test timeout: test timeout",)
    )
    (pause,) = last_run(endings).pauses
    assert pause[1] - pause[0] >= 2 * SECOND
    assert "of pause" in page.details()
