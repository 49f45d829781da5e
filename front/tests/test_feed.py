"""Data for a process that reads slowly, that ends, or that fails."""

from __future__ import annotations

import subprocess
import time
from collections.abc import Iterator

import pytest

from rezovamy_runs.processes.feed import Feed
from rezovamy_runs.processes.loop import Loop

MEBIBYTE = b"x" * (1 << 20)
SECOND = 10**9


@pytest.fixture
def loop() -> Iterator[Loop]:
    """A loop that is entered."""
    with Loop() as loop:
        yield loop


def feed_of(loop: Loop, script: str) -> Feed:
    """Return a feed of a shell script."""
    pipe = subprocess.PIPE
    return Feed(loop, subprocess.Popen(["sh", "-c", script], stdin=pipe, stdout=pipe, stderr=pipe))


def turn(loop: Loop, seconds: float) -> None:
    """Let the loop turn for some time."""
    until = loop.now() + int(seconds * SECOND)
    while loop.now() < until:
        loop.turn(until)


def test_all_of_it_comes_in_order(loop: Loop) -> None:
    feed = feed_of(loop, "cat")
    for word in (b"one ", b"two ", b"three"):
        feed.send(word)
    feed.leave()
    assert feed.finish() == (0, b"")
    assert feed.end_of_output == b"one two three"


@pytest.mark.parametrize("seconds", [0, 1])
def test_nothing_waits_for_a_slow_process(loop: Loop, seconds: float) -> None:
    """Neither if it is much: the loop passes it on, or the end does."""
    feed = feed_of(loop, "sleep 2; wc -c; echo done >&2; exit 3")
    begin = time.monotonic()
    for _ in range(20):
        feed.send(MEBIBYTE)
    assert time.monotonic() - begin < 1.9
    turn(loop, seconds)
    feed.leave()
    assert feed.finish() == (3, b"done\n")
    assert int(feed.end_of_output) == 20 << 20


def test_a_process_that_has_ended(loop: Loop) -> None:
    """What is sent to it goes nowhere, and its status is told."""
    feed = feed_of(loop, "read line; echo $line; exit 4")
    feed.send(b"first\n" + MEBIBYTE * 3)
    turn(loop, 0.3)
    feed.send(b"second\n")
    turn(loop, 0.1)
    feed.leave()
    assert feed.finish() == (4, b"")
    assert feed.end_of_output == b"first\n"


def test_a_process_that_prints_much(loop: Loop) -> None:
    """Only the end of it is held."""
    feed = feed_of(loop, "seq 100000; cat")
    turn(loop, 0.3)
    feed.leave()
    assert feed.finish() == (0, b"")
    assert feed.end_of_output.endswith(b"\n99999\n100000\n")
    assert len(feed.end_of_output) == 100
