"""How tests run that are processes: slots, attempts, limits, setup scripts."""

from __future__ import annotations

import os
import pathlib
import resource
import signal
from collections.abc import Iterator

import pytest

from rezovamy_runs.processes.command import CommandEnd, run_command
from rezovamy_runs.processes.jobs import (
    MILLISECOND,
    Cancelled,
    CancelReason,
    Ended,
    Event,
    Exit,
    Finished,
    ScriptEnded,
    ScriptSlow,
    ScriptStarted,
    Settings,
    Slow,
    Started,
    Tick,
    Verdict,
)
from rezovamy_runs.processes.loop import Loop
from rezovamy_runs.processes.run import Run
from tests.process_runs import events_of, program, script, shell


def told(events: list[Event]) -> Iterator[str]:
    """Return events as words: what started, how it ended, and why no more starts."""
    for event in events:
        match event:
            case Started(job, attempt):
                yield f"start {job.test_name} {attempt}"
            case Ended(job, attempt, ending=ending, next_attempt=again):
                yield f"{ending.verdict} {job.test_name} {attempt}" + (" again" if again else "")
            case Slow(job, will_terminate=will_terminate):
                yield f"slow {job.test_name}" + (" ends" if will_terminate else "")
            case ScriptStarted(one, index, total):
                yield f"script {one.name} {index} of {total}"
            case ScriptSlow(one):
                yield f"slow script {one.name}"
            case ScriptEnded(one, ending=ending):
                yield f"{ending.verdict} script {one.name}"
            case Cancelled(reason):
                yield f"cancel {reason}"
            case Finished():
                yield "finished"


def test_nothing_to_run() -> None:
    """The run ends at once."""
    assert list(told(events_of([]))) == ["finished"]


def test_each_slot_has_one_test_at_a_time() -> None:
    """The lowest one that is free is taken, and tests start in their order."""
    jobs = [shell(f"sleep 0.{number % 3}; exit {number}") for number in range(12)]
    busy: dict[int, str] = {}
    started: list[str] = []
    for event in events_of(jobs, Settings(3)):
        if isinstance(event, Started):
            assert event.slot == min({0, 1, 2} - set(busy))
            busy[event.slot] = event.job.test_name
            started.append(event.job.test_name)
        elif isinstance(event, Ended):
            assert busy.pop(event.slot) == event.job.test_name
    assert started == [job.test_name for job in jobs]
    assert not busy


def test_instants_never_go_back() -> None:
    """An attempt ends no earlier than it started, and took no longer than that."""
    events = events_of([shell("sleep 0.1"), shell("exit 1")], Settings(1, retries=1))
    instants = [event.at for event in events]
    assert instants == sorted(instants)
    for event in events:
        if isinstance(event, Ended):
            assert 0 < event.ending.elapsed <= event.at - event.ending.started


def test_no_more_tests_at_once_than_there_are_descriptors() -> None:
    """Otherwise they couldn't be started."""
    before = resource.getrlimit(resource.RLIMIT_NOFILE)
    jobs = [shell(f"sleep 0.1; : {number}") for number in range(60)]
    resource.setrlimit(resource.RLIMIT_NOFILE, (128, before[1]))
    try:
        events = events_of(jobs, Settings(60))
    finally:
        resource.setrlimit(resource.RLIMIT_NOFILE, before)
    verdicts = {event.ending.verdict for event in events if isinstance(event, Ended)}
    assert verdicts == {Verdict.PASSED}


def test_a_test_is_tried_again_until_it_passes(tmp_path: pathlib.Path) -> None:
    """It keeps its slot, and no test starts between its attempts."""
    flaky = shell("echo >> tries; test $(wc -l < tries) = 3", tmp_path)
    name = flaky.test_name
    assert list(told(events_of([flaky, shell(":")], Settings(1, retries=4)))) == [
        f"start {name} 1",
        f"failed {name} 1 again",
        f"start {name} 2",
        f"failed {name} 2 again",
        f"start {name} 3",
        f"passed {name} 3",
        "start : 1",
        "passed : 1",
        "finished",
    ]


@pytest.mark.parametrize(
    "text, verdict",
    [
        ("exit 1", Verdict.FAILED),
        ("kill -KILL $$", Verdict.KILLED),
        ("sleep 9", Verdict.TIMED_OUT),
    ],
)
def test_attempts_come_to_an_end(text: str, verdict: Verdict) -> None:
    """Whatever the failure is, there is one attempt more than retries."""
    events = events_of([shell(text)], Settings(1, retries=2, timeout=1000 * MILLISECOND))
    ended = [event for event in events if isinstance(event, Ended)]
    assert [(end.attempt, end.next_attempt) for end in ended] == [(1, 2), (2, 3), (3, None)]
    assert {(end.total_attempts, end.ending.verdict) for end in ended} == {(3, verdict)}


def test_what_cannot_be_started_is_tried_again() -> None:
    """It started and ended at once."""
    job = shell("exit 0", "/nowhere")
    assert list(told(events_of([job], Settings(1, retries=1)))) == [
        "start exit 0 1",
        "exec failed exit 0 1 again",
        "start exit 0 2",
        "exec failed exit 0 2",
        "finished",
    ]


def test_a_slow_test_is_told_once() -> None:
    """And once more where it is ended."""
    settings = Settings(1, slow_after=100 * MILLISECOND, timeout=3000 * MILLISECOND)
    events = events_of([shell("sleep 0.3"), shell("sleep 9"), shell(":")], settings)
    assert list(told(events)) == [
        "start sleep 0.3 1",
        "slow sleep 0.3",
        "passed sleep 0.3 1",
        "start sleep 9 1",
        "slow sleep 9",
        "slow sleep 9 ends",
        "timed out sleep 9 1",
        "start : 1",
        "passed : 1",
        "finished",
    ]
    slow = [event.elapsed for event in events if isinstance(event, Slow)]
    least = [100 * MILLISECOND, 100 * MILLISECOND, 3000 * MILLISECOND]
    assert all(elapsed >= bound for elapsed, bound in zip(slow, least, strict=True))
    is_slow = [event.ending.is_slow for event in events if isinstance(event, Ended)]
    assert is_slow == [True, True, False]


def test_fail_fast_lets_running_tests_end() -> None:
    """No further one starts, and none is tried again."""
    jobs = [shell("sleep 0.5; exit 2"), shell("exit 1"), shell("exit 0")]
    assert list(told(events_of(jobs, Settings(2, fail_fast=True, retries=1)))) == [
        "start sleep 0.5; exit 2 1",
        "start exit 1 1",
        "failed exit 1 1 again",
        "start exit 1 2",
        "failed exit 1 2",
        "cancel test-failure",
        "failed sleep 0.5; exit 2 1",
        "finished",
    ]


def test_fail_fast_waits_for_the_last_attempt(tmp_path: pathlib.Path) -> None:
    """A flaky test is no failure."""
    flaky = shell("rm once", tmp_path)
    twice = shell("test -e once || { touch once; exit 1; }", tmp_path)
    settings = Settings(1, retries=1, fail_fast=True)
    assert list(told(events_of([twice, flaky], settings)))[-1:] == ["finished"]
    assert not any(isinstance(event, Cancelled) for event in events_of([twice], settings))


def test_setup_scripts_end_before_the_first_test(tmp_path: pathlib.Path) -> None:
    """They run one after the other."""
    path = tmp_path / "order"
    scripts = [script("a", f"sleep 1.5; echo a >> {path}"), script("b", f"echo b >> {path}")]
    settings = Settings(2, slow_after=1000 * MILLISECOND, timeout=1200 * MILLISECOND)
    events = events_of([shell(f"cat {path}")], settings, scripts)
    assert list(told(events)) == [
        "script a 0 of 2",
        "slow script a",
        "passed script a",
        "script b 1 of 2",
        "passed script b",
        f"start cat {path} 1",
        f"passed cat {path} 1",
        "finished",
    ]
    assert [e.ending.stdout.first for e in events if isinstance(e, Ended)] == [b"a\nb\n"]


@pytest.mark.parametrize(
    "text, verdict",
    [("exit 3", Verdict.FAILED), ("kill -KILL $$", Verdict.KILLED)],
)
def test_no_test_starts_after_a_setup_script_that_failed(text: str, verdict: Verdict) -> None:
    """Nor does another script."""
    scripts = [script("a", text), script("b", "exit 0")]
    assert list(told(events_of([shell(":")], Settings(1), scripts))) == [
        "script a 0 of 2",
        f"{verdict} script a",
        "cancel setup-script-failure",
        "finished",
    ]


def test_a_setup_script_that_cannot_be_started() -> None:
    """It is as one that failed."""
    missing = script("a", ":")
    missing = type(missing)("a", missing.program._replace(words=("/nowhere/script",)))
    assert list(told(events_of([shell(":")], Settings(1), [missing]))) == [
        "script a 0 of 1",
        "exec failed script a",
        "cancel setup-script-failure",
        "finished",
    ]


def test_time_goes_by_while_nothing_happens() -> None:
    """So that somebody can show it."""
    with Loop() as loop:
        run = Run(loop, [shell("sleep 1")], Settings(1, tick=100 * MILLISECOND))
        ticks = [event.at for event in run if isinstance(event, Tick)]
    assert 3 <= len(ticks) <= 10
    assert all(later - tick >= 100 * MILLISECOND for tick, later in zip(ticks, ticks[1:]))


def test_what_is_given_up_is_not_left_running(tmp_path: pathlib.Path) -> None:
    """The iteration may end before the run does, and another run follow in the same loop."""
    job = shell("echo $$ > id.new; mv id.new id; sleep 60", tmp_path)
    with Loop() as loop:
        events = iter(Run(loop, [job], Settings(1)))
        while not (tmp_path / "id").exists():
            next(events)
        events.close()  # type: ignore[attr-defined]
        assert [e for e in Run(loop, [shell(":")], Settings(1)) if isinstance(e, Ended)]
    with pytest.raises(ProcessLookupError):
        os.kill(int((tmp_path / "id").read_text()), 0)


def test_a_signal_that_nobody_asked_for_is_sent_again() -> None:
    """It came after the last turn of the loop."""
    with pytest.raises(KeyboardInterrupt):
        with Loop():
            signal.raise_signal(signal.SIGINT)


def test_no_descriptor_is_left_open() -> None:
    """Also where tests leak, or can't be started."""
    before = sorted(os.listdir("/proc/self/fd"))
    events_of([shell(":"), shell("sleep 0.5 &"), shell("exit 0", "/nowhere")], Settings(2))
    assert sorted(os.listdir("/proc/self/fd")) == before


def test_a_command_hands_on_what_it_prints(capfd: pytest.CaptureFixture[str]) -> None:
    """Its standard error is that of the front end."""
    parts: list[bytes] = []
    with Loop() as loop:
        words = "cat; echo out; echo err >&2; head -c 3000000 /dev/zero; exit 7"
        end = run_command(loop, program("sh", "-c", words), parts.append)
    assert end == CommandEnd(Exit(7), None)
    assert b"".join(parts) == b"out\n" + bytes(3_000_000)
    assert capfd.readouterr() == ("", "err\n")


def test_a_command_that_cannot_be_started() -> None:
    """Whoever asked for it says what to do."""
    with Loop() as loop, pytest.raises(FileNotFoundError):
        run_command(loop, program("/nowhere/cargo"), lambda _: None)


def test_reasons_are_those_of_the_format() -> None:
    """A session has them as they are."""
    assert [str(reason) for reason in CancelReason] == [
        "setup-script-failure",
        "test-failure",
        "interrupt",
        "signal",
        "second-signal",
    ]
