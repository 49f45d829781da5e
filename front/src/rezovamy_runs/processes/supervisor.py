"""Watches attempts that run at once, and handles the signals for the whole run."""

from __future__ import annotations

import dataclasses
import os
import signal
from collections.abc import Iterator, Mapping

from rezovamy_runs.processes.attempt import Attempt, Limits, Step
from rezovamy_runs.processes.child import Consumer
from rezovamy_runs.processes.jobs import (
    Cancelled,
    CancelReason,
    Continued,
    Exit,
    Paused,
    Program,
    Settings,
    Tick,
)
from rezovamy_runs.processes.loop import Loop

# Why a run may be cancelled when the first signal comes that asks it to end.
NOT_BY_SIGNAL = (None, CancelReason.TEST_FAILURE, CancelReason.SETUP_SCRIPT_FAILURE)
ENDING = (signal.SIGINT, signal.SIGTERM, signal.SIGHUP)


@dataclasses.dataclass(frozen=True)
class CalledSlow:
    """An attempt is slow, or is ended because it reached the timeout."""

    attempt: Attempt
    will_terminate: bool
    at: int


@dataclasses.dataclass(frozen=True)
class Over:
    """An attempt is over."""

    attempt: Attempt
    outcome: Exit
    at: int


Notice = CalledSlow | Over | Paused | Continued | Cancelled | Tick


class Supervisor:
    """Watches the attempts that run."""

    def __init__(self, loop: Loop, settings: Settings) -> None:
        self._loop = loop
        self._settings = settings
        self.running: list[Attempt] = []
        self.cancelled: CancelReason | None = None
        self._last_notice = loop.now()

    def start(
        self, program: Program, consumers: Mapping[int, Consumer], limits: Limits = Limits()
    ) -> Attempt:
        """Start a program, and watch it until it is over."""
        attempt = Attempt(self._loop, program, consumers, self._settings, limits)
        self.running.append(attempt)
        return attempt

    def cancel(self, reason: CancelReason) -> Cancelled:
        """Cancel the run, without ending what runs."""
        self.cancelled = reason
        return Cancelled(reason, self._loop.now())

    def forget_all(self) -> None:
        """Wait no more for what runs, which somebody else has killed."""
        for attempt in self.running:
            attempt.forget()
        self.running.clear()

    def turn(self) -> Iterator[Notice]:
        """Wait until something happens or is due, and yield what it was."""
        for notice in self._turn():
            self._last_notice = notice.at
            yield notice
        now = self._loop.now()
        if now - self._last_notice >= self._settings.tick:
            self._last_notice = now
            yield Tick(now)

    def _turn(self) -> Iterator[Notice]:
        steps = (attempt.next_step() for attempt in self.running)
        due = [instant for instant in steps if instant is not None]
        signals = self._loop.turn(min([*due, self._last_notice + self._settings.tick]))
        yield from self._handle(signals)
        now = self._loop.now()
        for attempt in list(self.running):
            for step in attempt.do_due_steps(now):
                if step in (Step.CALL_SLOW, Step.TERMINATE):
                    yield CalledSlow(attempt, step is Step.TERMINATE, now)
            outcome = attempt.outcome()
            if outcome:
                self.running.remove(attempt)
                yield Over(attempt, outcome, now)

    def _handle(self, signals: list[int]) -> Iterator[Notice]:
        """End or pause the run as the signals ask."""
        for place, number in enumerate(signals):
            if number in ENDING:
                yield self._end(number)
            elif number == signal.SIGTSTP and signal.SIGCONT not in signals[place:]:
                yield from self._pause()

    def _end(self, number: int) -> Cancelled:
        """Pass on the first signal that asks the run to end, and kill what runs at a second."""
        now = self._loop.now()
        if self.cancelled in NOT_BY_SIGNAL:
            is_interrupt = number == signal.SIGINT
            self.cancelled = CancelReason.INTERRUPT if is_interrupt else CancelReason.SIGNAL
            # Tests often don't handle a hang-up, which would leave no trace of why they ended.
            passed_on = signal.SIGTERM if number == signal.SIGHUP else number
            for attempt in self.running:
                attempt.cancel(passed_on, now)
        else:
            self.cancelled = CancelReason.SECOND_SIGNAL
            for attempt in self.running:
                attempt.kill()
        return Cancelled(self.cancelled, now)

    def _pause(self) -> Iterator[Notice]:
        """Stop all processes and this one, and continue them once this one is continued."""
        begin = self._loop.now()
        for attempt in self.running:
            attempt.stop()
        yield Paused(begin)
        if not self._loop.has_noted(signal.SIGCONT):
            os.kill(os.getpid(), signal.SIGSTOP)
        now = self._loop.now()
        for attempt in self.running:
            attempt.go_on(now - begin)
        yield Continued(now)
