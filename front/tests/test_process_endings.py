"""How tests end that run as processes: each way is told as what it is."""

from __future__ import annotations

import os
import pathlib
import signal
import time

import pytest

from rezovamy_runs.processes.jobs import (
    MILLISECOND,
    Captured,
    Exit,
    Job,
    Program,
    Settings,
    Verdict,
)
from rezovamy_runs.processes.output import Capture
from rezovamy_runs.streams.messages import SECOND
from tests.process_runs import ending_of, endings_of, libtest, program, python, shell

SUMMARY = "{}; 0 ignored; 0 measured; 2 filtered out; finished in 0.01s\n\n"
PASSED = "\ntest result: " + SUMMARY.format("ok. 1 passed; 0 failed")
FAILED = "\ntest result: " + SUMMARY.format("FAILED. 0 passed; 1 failed")

# What a test does whose log file is `$2`, and how it ends.
BY_LOG_FILE = [
    ('echo "ok t" > "$2"', Verdict.PASSED, Exit(0)),
    ('echo "ok t" > "$2"; exec >&- 2>&-', Verdict.PASSED, Exit(0)),
    ('echo "failed t" > "$2"; exit 101', Verdict.FAILED, Exit(101)),
    ('echo "failed: it did not panic t" > "$2"; exit 101', Verdict.FAILED, Exit(101)),
    ('printf "failed: two\\nlines t\\n" > "$2"; exit 101', Verdict.FAILED, Exit(101)),
    ("exit 0", Verdict.NO_RESULT, Exit(0)),
    ("exit 7", Verdict.NO_RESULT, Exit(7)),
    ("exit 101", Verdict.NO_RESULT, Exit(101)),
    ('echo "ok t" > "$2"; exit 101', Verdict.NO_RESULT, Exit(101)),
    ('echo "failed t" > "$2"', Verdict.NO_RESULT, Exit(0)),
    ('echo "ok other t" > "$2"', Verdict.NO_RESULT, Exit(0)),
    ('echo "ok" > "$2"', Verdict.NO_RESULT, Exit(0)),
    ('echo "ignored: later t" > "$2"', Verdict.NO_RESULT, Exit(0)),
    (f"printf '{PASSED}'", Verdict.NO_RESULT, Exit(0)),
    ('echo "ok t" > "$2"; kill -SEGV $$', Verdict.KILLED, Exit(signal=signal.SIGSEGV)),
    ("kill -ABRT $$", Verdict.KILLED, Exit(signal=signal.SIGABRT)),
    ("kill -KILL $$", Verdict.KILLED, Exit(signal=signal.SIGKILL)),
    ("kill -TERM $$", Verdict.KILLED, Exit(signal=signal.SIGTERM)),
]
# What a test prints that has no log file, with its exit status.
BY_OUTPUT = [
    (f"test t ... ok\n{PASSED}", 0, Verdict.PASSED),
    (f"no end of linetest t ... ok\n{PASSED}", 0, Verdict.PASSED),
    (f"{FAILED}", 101, Verdict.FAILED),
    ("", 0, Verdict.NO_RESULT),
    ("", 101, Verdict.NO_RESULT),
    (f"{PASSED}", 101, Verdict.NO_RESULT),
    (f"{FAILED}", 0, Verdict.NO_RESULT),
    (f"{PASSED}and more", 0, Verdict.NO_RESULT),
    (PASSED.replace("1 passed", "2 passed"), 0, Verdict.NO_RESULT),
    (PASSED.replace("0 ignored", "1 ignored"), 0, Verdict.NO_RESULT),
]
# What a program without libtest does, and how it ends.
BY_STATUS = [
    (shell("exit 0"), Verdict.PASSED, Exit(0)),
    (shell("exit 3"), Verdict.FAILED, Exit(3)),
    (shell("exit 255"), Verdict.FAILED, Exit(255)),
    (shell("exec >&- 2>&-; sleep 0.2; exit 4"), Verdict.FAILED, Exit(4)),
    (python("import ctypes; ctypes.string_at(0)"), Verdict.KILLED, Exit(signal=signal.SIGSEGV)),
    (python("import os; os.abort()"), Verdict.KILLED, Exit(signal=signal.SIGABRT)),
    (shell("kill -KILL 0"), Verdict.KILLED, Exit(signal=signal.SIGKILL)),
]


@pytest.mark.parametrize("text, verdict, ended", BY_LOG_FILE)
def test_a_log_file_tells_the_result(text: str, verdict: Verdict, ended: Exit) -> None:
    """Only what says `ok` with its name, and exits with 0, has passed."""
    ending = ending_of(libtest("t", text))
    assert (ending.verdict, ending.exit, ending.leaked) == (verdict, ended, False)


@pytest.mark.parametrize("text, status, verdict", BY_OUTPUT)
def test_the_summary_tells_the_result(text: str, status: int, verdict: Verdict) -> None:
    """Without a log file, it is the end of standard output."""
    words = program("sh", "-c", 'printf %s "$1"; exit "$2"', "sh", text, str(status))
    ending = ending_of(Job("alpha", "t", words))
    assert (ending.verdict, ending.exit) == (verdict, Exit(status))


def test_the_summary_is_found_behind_a_long_output() -> None:
    """Also where what is kept is torn at any byte of it."""
    text = f"head -c 300 /dev/zero; printf '{PASSED}'"
    job = Job("alpha", "t", program("sh", "-c", text))
    for limit in range(290, 310 + len(PASSED)):
        assert ending_of(job, Settings(1, output_limit=limit)).verdict is Verdict.PASSED


@pytest.mark.parametrize("job, verdict, ended", BY_STATUS)
def test_the_exit_status_tells_the_result(job: Job, verdict: Verdict, ended: Exit) -> None:
    """So it is without libtest."""
    ending = ending_of(job)
    assert (ending.verdict, ending.exit, ending.leaked) == (verdict, ended, False)


def test_each_test_is_told_by_itself() -> None:
    """Tests that end in different ways don't change how others beside them are told."""
    jobs = [libtest("t", 'sleep 0.1; echo "ok t" > "$2"'), *(job for job, *_ in BY_STATUS)]
    endings = endings_of(jobs)
    told = {name: ending.verdict for name, [ending] in endings.items()}
    expected = {job.test_name: verdict for job, verdict, _ in BY_STATUS}
    assert told == {"t": Verdict.PASSED, **expected}


@pytest.mark.parametrize(
    "path, mode, error",
    [
        ("missing", None, "No such file or directory"),
        ("closed", 0o600, "Permission denied"),
        ("text", 0o700, "Exec format error"),
    ],
)
def test_a_program_that_cannot_be_started(
    tmp_path: pathlib.Path, path: str, mode: int | None, error: str
) -> None:
    """The system's reason is told."""
    if mode is not None:
        (tmp_path / path).write_text("no program")
        (tmp_path / path).chmod(mode)
    ending = ending_of(Job("alpha", "t", program(str(tmp_path / path))))
    assert (ending.verdict, ending.exit, ending.error) == (Verdict.EXEC_FAILED, None, error)


def test_a_directory_that_is_gone(tmp_path: pathlib.Path) -> None:
    """The program isn't started elsewhere."""
    here = os.getcwd()
    ending = ending_of(shell("exit 0", tmp_path / "gone"))
    assert (ending.verdict, ending.error) == (Verdict.EXEC_FAILED, "No such file or directory")
    assert os.getcwd() == here


def test_what_a_program_is_given(tmp_path: pathlib.Path) -> None:
    """It gets exactly its environment, its directory, and an empty standard input."""
    here = os.getcwd()
    environment = {b"A": b"\xff", b"B": b"two\nlines", b"PWD": b"/"}
    job = Job("alpha", "t", Program(("env", "-0"), str(tmp_path), environment), runs_tests=False)
    assert ending_of(job).stdout.first == b"A=\xff\0B=two\nlines\0PWD=/\0"
    assert ending_of(shell("pwd -P; cat", tmp_path)).stdout.first == f"{tmp_path}\n".encode()
    assert os.getcwd() == here
    group = python("import os; assert os.getpgrp() == os.getpid()")
    assert ending_of(group).verdict is Verdict.PASSED


def test_a_program_ignores_no_more_signals_than_the_front_end_was_told_to() -> None:
    """Python ignores two of them for itself."""
    text = ending_of(shell("grep SigIgn /proc/self/status")).stdout.first
    ignored = int(text.split()[1], 16)
    for number in (signal.SIGPIPE, signal.SIGXFSZ, signal.SIGTTOU):
        assert not ignored & 1 << (number - 1), number


def test_outputs_are_kept_by_stream() -> None:
    """They are bytes of any kind."""
    ending = ending_of(shell(r"printf 'a\377\000'; printf 'b\n' >&2"))
    assert ending.stdout == Captured(b"a\xff\x00", b"", 3)
    assert ending.stderr == Captured(b"b\n", b"", 2)


@pytest.mark.parametrize(
    "length, first, last",
    [(0, 0, 0), (10, 10, 0), (11, 10, 1), (4106, 10, 4096), (4107, 10, 4096), (9**8, 10, 4096)],
)
def test_a_long_output_is_not_kept_whole(length: int, first: int, last: int) -> None:
    """Its first bytes are up to the limit, its last bytes are 4096, and its length is known."""
    job = shell(f"seq {length} | head -c {length}")
    text = b"".join(b"%d\n" % number for number in range(1, min(length, 9000) + 1))[:length]
    kept = ending_of(job, Settings(1, output_limit=10)).stdout
    assert (len(kept.first), len(kept.last), kept.length) == (first, last, length)
    assert kept.first == text[:first]
    if length < 9**8:
        assert kept.last == text[length - last :]


@pytest.mark.parametrize("size", [1, 7, 4095, 4096, 4097, 20000])
def test_an_output_is_kept_the_same_however_it_comes(size: int) -> None:
    """It may be read in pieces of any size."""
    text = bytes(number % 251 for number in range(20000))
    capture = Capture(10)
    for begin in range(0, len(text), size):
        capture.feed(text[begin : begin + size])
    assert capture.captured() == Captured(text[:10], text[-4096:], 20000)


def test_a_line_of_5_megabytes_is_read() -> None:
    """Lines mean nothing here."""
    kept = ending_of(shell("head -c 5000000 /dev/zero | tr '\\0' x")).stdout
    assert (kept.length, kept.first) == (5_000_000, b"x" * (1 << 20))
    assert kept.left_out == 5_000_000 - (1 << 20) - 4096


def test_the_warning_of_the_log_file_is_left_out() -> None:
    """It is libtest's, and not the test's."""
    text = 'printf "warning: \\`--logfile\\` is deprecated\\nown" >&2; echo "ok t" > "$2"'
    assert ending_of(libtest("t", text)).stderr == Captured(b"\nown", b"", 4)
    without = shell('printf "warning: \\`--logfile\\` is deprecated\\nown" >&2')
    assert ending_of(without).stderr.length == 38


def test_a_leak_is_told_and_is_no_failure() -> None:
    """What holds an output open after the end of the process is waited for only so long."""
    begin = time.monotonic()
    settings = Settings(1, retries=2)
    [ending] = endings_of([libtest("t", 'sleep 30 & echo "ok t" > "$2"')], settings)["t"]
    assert (ending.verdict, ending.leaked) == (Verdict.PASSED, True)
    assert 0.1 <= time.monotonic() - begin < 20
    assert ending.elapsed < 20 * SECOND


def test_a_leak_is_no_timeout() -> None:
    """The process has ended in time."""
    settings = Settings(1, timeout=2 * SECOND, leak_wait=3 * SECOND)
    ending = ending_of(shell("sleep 9 &"), settings)
    assert (ending.verdict, ending.leaked, ending.is_slow) == (Verdict.PASSED, True, False)


def test_what_lets_go_in_time_is_no_leak() -> None:
    """Nor is what holds no output."""
    settings = Settings(1, leak_wait=20 * SECOND)
    ending = ending_of(shell("(sleep 0.3; echo late) & echo early"), settings)
    assert (ending.stdout.first, ending.leaked) == (b"early\nlate\n", False)
    assert not ending_of(shell("sleep 1 > /dev/null 2>&1 &")).leaked


def test_what_a_pipe_still_holds_is_no_leak() -> None:
    """It is read, however late that is."""
    ending = ending_of(shell("head -c 900000 /dev/zero"), Settings(1, leak_wait=0))
    assert (ending.stdout.length, ending.leaked) == (900_000, False)


def test_a_failure_may_leak_too() -> None:
    """Both are told."""
    ending = ending_of(shell("sleep 0.5 & exit 3"))
    assert (ending.verdict, ending.exit, ending.leaked) == (Verdict.FAILED, Exit(3), True)


@pytest.mark.parametrize(
    "text, number, least",
    [
        ("sleep 60", signal.SIGTERM, 1.5),
        ("trap '' TERM; sleep 60 & wait; sleep 60", signal.SIGKILL, 1.7),
        ("trap '' TERM; while :; do echo on; done", signal.SIGKILL, 1.7),
    ],
)
def test_a_timeout_ends_the_whole_group(text: str, number: int, least: float) -> None:
    """It is asked to end, and killed after the grace."""
    settings = Settings(1, timeout=1500 * MILLISECOND, grace=200 * MILLISECOND)
    ending = ending_of(shell(text), settings)
    assert (ending.verdict, ending.exit) == (Verdict.TIMED_OUT, Exit(signal=number))
    assert least * SECOND <= ending.elapsed < 30 * SECOND
    assert not ending.leaked


def test_a_timeout_ends_what_went_to_another_group() -> None:
    """Its own group is empty then."""
    text = """
import os, time
other = os.fork()
if other == 0:
    time.sleep(9)
    os._exit(0)
os.setpgid(other, other)
os.setpgid(0, other)
time.sleep(60)
"""
    ending = ending_of(python(text), Settings(1, timeout=2 * SECOND))
    assert (ending.verdict, ending.exit) == (Verdict.TIMED_OUT, Exit(signal=signal.SIGTERM))


def test_a_timeout_counts_even_if_the_test_passes_then() -> None:
    """It passed too late."""
    text = 'trap \'echo "ok t" > "$2"; exit 0\' TERM; while :; do sleep 0.01; done'
    ending = ending_of(libtest("t", text), Settings(1, timeout=2 * SECOND))
    assert (ending.verdict, ending.exit) == (Verdict.TIMED_OUT, Exit(0))
