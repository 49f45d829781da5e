"""One run of a program from its start to its end, with the limits on its time."""

from __future__ import annotations

import enum
import signal
from collections.abc import Mapping
from typing import NamedTuple

from rezovamy_runs.processes.child import Child, Consumer
from rezovamy_runs.processes.jobs import Exit, Program, Settings
from rezovamy_runs.processes.loop import Loop


class Step(enum.Enum):
    """What is done to an attempt at an instant."""

    CALL_SLOW = enum.auto()
    TERMINATE = enum.auto()
    KILL = enum.auto()
    ABANDON_OUTPUTS = enum.auto()


class Limits(NamedTuple):
    """After which times an attempt is called slow, and is ended; None means never."""

    slow_after: int | None = None
    timeout: int | None = None


class Attempt:
    """A process, and the instants at which something must be done to it."""

    def __init__(
        self,
        loop: Loop,
        program: Program,
        consumers: Mapping[int, Consumer],
        settings: Settings,
        limits: Limits = Limits(),
    ) -> None:
        self._settings = settings
        self.started = loop.now()
        self._child = Child(loop, program, consumers)
        self._paused = 0
        self._has_exited = False
        self.is_slow = self.is_timed_out = self.is_cancelled = self.leaked = False
        self._steps: dict[Step, int] = {}
        if limits.slow_after is not None:
            self._steps[Step.CALL_SLOW] = self.started + limits.slow_after
        if limits.timeout is not None:
            self._steps[Step.TERMINATE] = self.started + limits.timeout

    def outcome(self) -> Exit | None:
        """Return how the process ended, or None while it runs or its outputs are read."""
        return None if self._child.is_open else self._child.exit

    def elapsed(self, now: int = 0) -> int:
        """Return how long the process has run by now or until it ended, without pauses."""
        return (self._child.ended or now) - self.started - self._paused

    def next_step(self) -> int | None:
        """Return the instant of the next step, or None if there is none."""
        return min(self._steps.values(), default=None)

    def do_due_steps(self, now: int) -> list[Step]:
        """Do what is due, and return what was done."""
        if self._child.exit and not self._has_exited:
            self._has_exited = True
            self._steps = {Step.ABANDON_OUTPUTS: now + self._settings.leak_wait}
        due = [step for step, instant in self._steps.items() if instant <= now]
        for step in due:
            del self._steps[step]
            self._do(step, now)
        return due

    def _do(self, step: Step, now: int) -> None:
        """Do one step."""
        match step:
            case Step.CALL_SLOW:
                self.is_slow = True
            case Step.TERMINATE:
                self.time_out(now)
            case Step.KILL:
                self._child.send(signal.SIGKILL)
            case Step.ABANDON_OUTPUTS:
                self.leaked = self._child.abandon()

    def call_slow_at(self, instant: int | None) -> None:
        """Call the attempt slow at an instant and not before; never if it is None."""
        self._steps.pop(Step.CALL_SLOW, None)
        if instant is not None:
            self._steps[Step.CALL_SLOW] = instant

    def time_out(self, now: int) -> None:
        """Ask the process to end, because it has run for too long."""
        self.is_timed_out = True
        self._end(signal.SIGTERM, now + self._settings.grace)

    def _end(self, number: int, kill_at: int) -> None:
        """Ask the process to end, and kill it at an instant if it still runs."""
        self._child.send(number)
        self._steps.pop(Step.TERMINATE, None)
        self._steps[Step.KILL] = min(kill_at, self._steps.get(Step.KILL, kill_at))

    def cancel(self, number: int, now: int) -> None:
        """Ask the process to end by a signal, because the run is cancelled."""
        if not self._child.exit:
            self.is_cancelled = True
            self._end(number, now + self._settings.cancel_grace)

    def kill(self) -> None:
        """Kill the process."""
        self._child.send(signal.SIGKILL)

    def forget(self) -> None:
        """Wait no more for a process that somebody else has killed."""
        self._child.forget()

    def stop(self) -> None:
        """Stop the process for a pause."""
        self._child.send(signal.SIGSTOP)

    def go_on(self, pause: int) -> None:
        """Continue the process after a pause of this length."""
        self._steps = {step: instant + pause for step, instant in self._steps.items()}
        if not self._child.exit:
            self._paused += pause
        self._child.send(signal.SIGCONT)
