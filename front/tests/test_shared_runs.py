"""How tests run that share a process, and what its crash does to them."""

from __future__ import annotations

import signal

import pytest

from rezovamy_runs.cut_outputs import LAST
from rezovamy_runs.processes.event_lines import EventLines
from rezovamy_runs.processes.jobs import (
    Captured,
    Ended,
    Ending,
    Event,
    Group,
    Job,
    Printed,
    Settings,
    Slow,
    Started,
    Verdict,
)
from rezovamy_runs.processes.loop import Loop
from rezovamy_runs.processes.run import Run
from rezovamy_runs.streams.messages import SECOND
from tests.process_runs import events_of, program

# Functions of a shell in place of libtest: the start of a test, its end, and that with an output.
LIBTEST = r"""
log=$2
start() { echo "{ \"type\": \"test\", \"event\": \"started\", \"name\": \"$1\" }"; }
note() { echo "$1 $2" >> $log; }
say() { echo "{ \"type\": \"test\", \"name\": \"$2\", \"event\": \"$1\"$3 }"; }
end() { note $1 $2; say "$@"; }
"""
# How a test ends that runs by itself, by its name: it says so in the log, and with its status.
ALONE = r"""
log=$2
case NAME in
    bad*) echo 'failed NAME' >> $log; exit 101;;
    crash*) kill -SEGV $$;;
    hang*) exec sleep 60;;
    quit*) exit 0;;
    *) echo 'ok NAME' >> $log;;
esac
"""


def group_of(text: str, *names: str, log_file: bool = True) -> Group:
    """Return tests of a shell script in place of a binary."""
    jobs = [
        Job("alpha", name, program("sh", "-c", ALONE.replace("NAME", name), "sh"), log_file=True)
        for name in names
    ]
    itself = Job("alpha", "alpha", program("sh"), runs_tests=False)
    words = program("sh", "-c", LIBTEST + text, "sh")
    return Group(words, (), tuple(jobs), itself, frozenset(["ignored"]), log_file)


def run(text: str, *names: str, log_file: bool = True, retries: int = 0) -> list[Event]:
    """Return what is told of a group."""
    settings = Settings(1, retries)
    return events_of([], settings, groups=[group_of(text, *names, log_file=log_file)])


def told(events: list[Event]) -> str:
    """Return in which order tests started and ended, and how."""
    found = []
    for event in events:
        if isinstance(event, Started):
            found.append(f"{event.job.test_name} {event.slot}")
        elif isinstance(event, Ended):
            found.append(f"{event.job.test_name} {event.ending.verdict}")
        elif isinstance(event, Slow):
            found.append(f"{event.job.test_name} slow")
    return ", ".join(found)


def endings(events: list[Event]) -> dict[str, Ending]:
    """Return how each test ended."""
    return {event.job.test_name: event.ending for event in events if isinstance(event, Ended)}


@pytest.mark.parametrize(
    ("text", "names", "expected"),
    [
        pytest.param(
            "start a; end ok a; start b; end failed b; exit 101",
            "a b",
            "a 0, a passed, b 0, b failed",
            id="one after the other",
        ),
        pytest.param(
            "start a; start b; end ok a; start c; end ok c; end ok b",
            "a b c",
            "a 0, b 1, a passed, c 0, c passed, b passed",
            id="two at once",
        ),
        pytest.param(
            "start ignored; say ignored ignored; start a; end ok a",
            "a",
            "a 0, a passed",
            id="others",
        ),
        pytest.param(
            "start a; say timeout a; end ok a", "a", "a 0, a slow, a passed", id="a slow one"
        ),
        pytest.param(
            "start a; start crash; start b; end ok b; kill -SEGV $$",
            "a crash b c",
            "a 0, crash 1, b 2, b passed, a passed, crash killed",
            id="a crash",
        ),
        pytest.param(
            "start a; start quit; exit 0",
            "a quit",
            "a 0, quit 1, a passed, quit no result",
            id="an exit",
        ),
        pytest.param(
            "start a; start bad; start crash; note failed bad; kill -SEGV $$",
            "a bad crash",
            "a 0, bad 1, crash 2, bad failed, a passed, crash killed",
            id="a failure beside a crash",
        ),
        pytest.param(
            "start a; start b; kill -SEGV $$",
            "a b",
            "a 0, b 1, a passed, b passed, alpha 0, alpha killed",
            id="a crash of what passes alone",
        ),
        pytest.param(
            "start a; end ok a; exit 7",
            "a",
            "a 0, a passed, alpha 0, alpha no result",
            id="a status after all have passed",
        ),
        pytest.param(
            "start a; end ok a",
            "a b",
            "a 0, a passed, alpha 0, alpha no result",
            id="a test that never starts",
        ),
        pytest.param(
            "start a; start b; say ok b; end ok a; end failed b; exit 101",
            "a b",
            "a 0, b 1, a passed, b failed",
            id="a line that a test prints",
        ),
        pytest.param(
            'start a; printf text; end ok a; start b; printf \'{ "type": "te\'; note ok b',
            "a b",
            "a 0, a passed, b 0, b passed",
            id="broken lines",
        ),
        pytest.param(
            "exec >&-; note ok a; note failed b; exit 101",
            "a b",
            "a 0, a passed, b 0, b failed",
            id="no output",
        ),
    ],
)
def test_which_test_ended_how(text: str, names: str, expected: str) -> None:
    assert told(run(text, *names.split())) == expected


@pytest.mark.parametrize(
    ("text", "names", "expected"),
    [
        pytest.param(
            "start flaky; end failed flaky; start a; end ok a; exit 101",
            "flaky a",
            "flaky 1/3 failed, a 1/3 passed, flaky 2/3 passed",
            id="it passes by itself",
        ),
        pytest.param(
            "start bad; end failed bad; exit 101",
            "bad",
            "bad 1/3 failed, bad 2/3 failed, bad 3/3 failed",
            id="it fails each time",
        ),
        pytest.param(
            "start a; start crash; kill -SEGV $$",
            "a crash",
            "a 1/3 passed, crash 1/3 killed, crash 2/3 killed, crash 3/3 killed",
            id="a crash",
        ),
        pytest.param(
            "start a; start b; kill -SEGV $$",
            "a b",
            "a 1/3 passed, b 1/3 passed, alpha 1/1 killed",
            id="the process is not tried again",
        ),
    ],
)
def test_retries(text: str, names: str, expected: str) -> None:
    """Each is by itself, after the process has ended."""
    events = run(text, *names.split(), retries=2)
    ended = [event for event in events if isinstance(event, Ended)]
    said = [
        f"{event.job.test_name} {event.attempt}/{event.total_attempts} {event.ending.verdict}"
        for event in ended
    ]
    assert ", ".join(said) == expected
    starts = [event for event in events if isinstance(event, Started)]
    assert sorted((event.job.test_name, event.attempt) for event in starts) == sorted(
        (event.job.test_name, event.attempt) for event in ended
    )
    for event in ended:
        is_last = not any(
            other.job is event.job and other.attempt > event.attempt for other in ended
        )
        assert event.next_attempt == (None if is_last else event.attempt + 1)


@pytest.mark.parametrize(
    ("text", "names", "expected"),
    [
        pytest.param(
            "start a; end ok a; start hangs; sleep 1; start b; start bad; sleep 60",
            "a hangs b bad c",
            "a 0, a passed, hangs 0, b 1, bad 2, hangs slow, hangs timed out, b passed, bad failed",
            id="tests beside it, and one that never starts",
        ),
        pytest.param(
            "trap '' TERM; start hangs; while :; do sleep 0.1; done",
            "hangs",
            "hangs 0, hangs slow, hangs timed out",
            id="a process that goes on",
        ),
        pytest.param(
            "trap 'end ok hangs; exit 0' TERM; start hangs; while :; do sleep 0.1; done",
            "hangs",
            "hangs 0, hangs slow, hangs timed out",
            id="it passes after that",
        ),
        pytest.param(
            "start a; note ok a; sleep 3", "a", "a 0, a passed", id="only the log has its end"
        ),
    ],
)
def test_a_timeout(text: str, names: str, expected: str) -> None:
    """Exactly the tests that reached it are told so."""
    settings = Settings(1, timeout=2 * SECOND)
    assert told(events_of([], settings, groups=[group_of(text, *names.split())])) == expected


def test_what_is_said_of_a_timeout() -> None:
    text = "start hangs; sleep 1; start b; sleep 60"
    settings = Settings(1, retries=1, timeout=2 * SECOND)
    events = events_of([], settings, groups=[group_of(text, "hangs", "b")])
    ended = [event for event in events if isinstance(event, Ended)]
    assert [(event.job.test_name, event.attempt, event.ending.error) for event in ended] == [
        ("hangs", 1, "its process held what it printed, which is lost"),
        (
            "b",
            1,
            "ran beside a timeout: its process was ended since hangs ran for too long; "
            "by itself it passed",
        ),
        ("hangs", 2, ""),
    ]
    assert [event.ending.verdict for event in ended] == [
        Verdict.TIMED_OUT,
        Verdict.PASSED,
        Verdict.TIMED_OUT,
    ]


def test_a_run_that_is_cancelled_before_a_retry() -> None:
    """Its test has an end, which says why it wasn't tried again."""
    group = group_of("trap 'exit 1' INT; start bad; end failed bad; sleep 60", "bad")
    ended: list[Ended] = []
    with Loop() as loop:
        for event in Run(loop, [], Settings(1, retries=2), groups=[group]):
            if isinstance(event, Ended):
                ended.append(event)
                if event.next_attempt == 2:
                    signal.raise_signal(signal.SIGINT)
    assert [(event.attempt, event.ending.verdict, event.next_attempt) for event in ended] == [
        (1, Verdict.FAILED, 2),
        (2, Verdict.EXEC_FAILED, None),
    ]
    assert ended[1].ending.error == "the run was cancelled before this attempt started"


def test_a_binary_without_a_log_file() -> None:
    """Its lines are believed."""
    events = run("start a; say ok a; start b; say failed b; exit 101", "a", "b", log_file=False)
    assert told(events) == "a 0, a passed, b 0, b failed"


def test_a_binary_that_cannot_be_started() -> None:
    group = group_of("", "a")
    missing = group.program._replace(words=("/nothing/there",))
    events = events_of([], groups=[Group(missing, (), group.jobs, group.itself)])
    assert told(events) == "alpha 0, alpha exec failed"


def test_outputs() -> None:
    """That of a test is in its line. What stands in other lines is told of the process."""
    events = run(
        """echo outside; start a; echo no line >&2; end ok a ', "stdout": "in\\\\nside"'
        start b; end failed b ', "stdout": "why", "message": "but"'; printf last; exit 101""",
        "a",
        "b",
    )
    ends = endings(events)
    assert ends["a"].stdout == Captured(b"in\nside", b"", 7)
    assert (ends["b"].stdout.first, ends["b"].error, ends["b"].is_combined) == (b"why", "but", True)
    (printed,) = [event for event in events if isinstance(event, Printed)]
    assert printed.stdout.first == b"outside\nlast"
    assert printed.stderr.first == b"no line\n"


def test_a_long_output() -> None:
    """Its first and its last bytes are kept, and how many it had."""
    text = """start a; note ok a; printf '{ "type": "test", "name": "a", "event": "ok", "stdout": "'
    head -c 3000000 /dev/zero | tr '\\0' x; echo 'end" }'"""
    (ending,) = endings(run(text, "a")).values()
    assert (ending.stdout.length, ending.stdout.last[-4:]) == (3_000_003, b"xend")
    assert len(ending.stdout.first) == 1 << 20


# What a test prints by a part that comes again and again, and how its line of JSON spells the part.
PRINTED = [
    (b"x", b"x"),
    (b"\n", rb"\n"),
    (b'\\"', rb"\\\""),
    (b"\x1b[0m", rb"\u001b[0m"),
    ("größer".encode(), "größer".encode()),
    (b"\xff", b"\xff"),
]


@pytest.mark.parametrize(("part", "spelled"), PRINTED)
@pytest.mark.parametrize("step", [1, 7, 4096, 1 << 20])
def test_an_event_that_comes_in_pieces(part: bytes, spelled: bytes, step: int) -> None:
    """A piece may end within a character or an escape."""
    times, limit = 70_000 // len(part), 1000
    line = b'{ "type": "test", "name": "a", "event": "failed", "stdout": "' + spelled * times
    line += b'", "message": "\\"why\\"" }\n'
    lines = EventLines(limit)
    data = b"text " + line + b"more\n"
    for begin in range(0, len(data), step):
        lines.feed(data[begin : begin + step])
    ((event, output, kept),) = lines.events()
    assert (event.name, event.kind, event.message) == ("a", "failed", '"why"')
    whole = part * times
    assert output == Captured(whole[:limit], whole[-LAST:], len(whole))
    assert kept == Captured(line[:limit], line[-LAST:], len(line))
    assert lines.text.captured() == Captured(b"text more\n", b"", 10)


@pytest.mark.parametrize(
    "end",
    [
        pytest.param(b'", "message": }', id="no JSON"),
        pytest.param(rb"\uzzzz and more", id="no escape"),
        pytest.param(rb"\q and more", id="an unknown escape"),
        pytest.param(b"\x00 and more", id="a character that must be escaped"),
        pytest.param(b"", id="no end"),
    ],
)
@pytest.mark.parametrize("last", [b"\n", b""])
def test_a_long_line_that_is_no_event_is_text(end: bytes, last: bytes) -> None:
    line = b'{ "type": "test", "name": "a", "event": "ok", "stdout": "' + b"x" * 70_000 + end + last
    lines = EventLines(1000)
    for data in (b"before\n", line[:-1], line[-1:]):
        lines.feed(data)
    lines.finish()
    text = b"before\n" + line
    assert lines.events() == []
    assert lines.text.captured() == Captured(text[:1000], text[-LAST:], len(text))


def test_text_without_an_end_of_line_is_not_kept_whole() -> None:
    (printed,) = [
        event
        for event in run("head -c 3000000 /dev/zero | tr '\\0' x; start a; end ok a", "a")
        if isinstance(event, Printed)
    ]
    assert printed.stdout.length == 3_000_000


def test_what_is_said_of_a_test_that_ran_beside_a_crash() -> None:
    ends = endings(run("start a; start crash; kill -SEGV $$", "a", "crash"))
    assert ends["a"].error == (
        "ran beside a crash: its process was ended by signal 11 while it and crash ran; "
        "by itself it passed"
    )
    assert ends["crash"].error == ""


@pytest.mark.parametrize(
    ("text", "said"),
    [
        (
            "start a; start b; exit 3",
            "the process exited with status 3 while it ran a, b, which pass by themselves",
        ),
        (
            "start a; end ok a; start b; kill -KILL $$",
            "the process was ended by signal 9 while it ran b, which passes by itself",
        ),
        ("exit 3", "the process exited with status 3 while it ran no test"),
    ],
)
def test_what_is_said_of_the_process(text: str, said: str) -> None:
    ending = endings(run(f"echo text; {text}", "a", "b"))["alpha"]
    assert (ending.error, ending.stdout.first) == (said, b"text\n")
    assert ending.verdict in (Verdict.NO_RESULT, Verdict.KILLED)
