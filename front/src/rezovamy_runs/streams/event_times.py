"""Puts the instants of tests into the order of their lines, which arrive late by more or less."""

from __future__ import annotations

from rezovamy_runs.streams.test_runs import Attempt, Mark, TestRun


def put_in_order(tests: list[TestRun]) -> None:
    """End no test later than one started whose start stands after that end in the lines.

    A start is counted back from the arrival of its test's end. Where lines come in a burst, it may
    be earlier than the arrival of an end before it, as if both tests had run at once. That end
    then was earlier too, and with it the start of its test.
    """
    attempts = [attempt for test in tests if not test.skipped for attempt in test.attempts]
    steps = [(attempt.start.line, True, place) for place, attempt in enumerate(attempts)]
    # What one line both starts and ends can't limit itself.
    steps += [
        (attempt.end.line, False, place)
        for place, attempt in enumerate(attempts)
        if attempt.end and attempt.end.line > attempt.start.line
    ]
    next_start: int | None = None
    for _, is_start, place in sorted(steps, reverse=True):
        attempt = attempts[place]
        if is_start:
            start = attempt.start.time
            next_start = start if next_start is None else min(next_start, start)
        elif next_start is not None and next_start < attempt.ended.time:
            end_by(attempt, next_start)


def end_by(attempt: Attempt, time: int) -> None:
    """Let an attempt end at an earlier instant."""
    attempt.end = Mark(time, attempt.ended.line)
    attempt.start = Mark(min(attempt.start.time, time - attempt.taken), attempt.start.line)
    if attempt.slow:
        attempt.slow = max(attempt.start, min(attempt.slow, attempt.end))
