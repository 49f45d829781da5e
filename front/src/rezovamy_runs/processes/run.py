"""Runs tests, each as a process, and yields what happens."""

from __future__ import annotations

import collections
import dataclasses
import functools
import heapq
import resource
from collections.abc import Iterable, Iterator, Sequence

from rezovamy_runs.processes.attempt import Attempt, Limits
from rezovamy_runs.processes.descendants import children, kill_descendants
from rezovamy_runs.processes.jobs import (
    CancelReason,
    Ended,
    Ending,
    Event,
    Finished,
    Group,
    Job,
    Script,
    ScriptEnded,
    ScriptSlow,
    ScriptStarted,
    Settings,
    Slow,
    Started,
    Verdict,
)
from rezovamy_runs.processes.loop import Loop
from rezovamy_runs.processes.shared import SharedRun
from rezovamy_runs.processes.supervisor import CalledSlow, Notice, Over, Supervisor
from rezovamy_runs.processes.tries import Try, not_started
from rezovamy_runs.processes.verdicts import by_status, by_test

# Two pipes, the process and the log file of a test, and what else may be open.
DESCRIPTORS_OF_TEST, OTHER_DESCRIPTORS = 4, 64


@dataclasses.dataclass(frozen=True)
class Place:
    """An attempt of a test, and its slot."""

    job: Job
    attempt: int
    slot: int


def most_slots() -> int:
    """Return how many tests may run at once, by the descriptors that they need."""
    most, _ = resource.getrlimit(resource.RLIMIT_NOFILE)
    return max(1, (most - OTHER_DESCRIPTORS) // DESCRIPTORS_OF_TEST)


class Run:
    """A run of tests, as the events that happen.

    The caller enters the loop. The run goes on only while its events are iterated, so handle each
    of them fast. If you close the iterator before the end, what runs is killed.
    """

    def __init__(
        self,
        loop: Loop,
        jobs: Iterable[Job],
        settings: Settings,
        scripts: Sequence[Script] = (),
        groups: Sequence[Group] = (),
    ) -> None:
        self._loop, self._settings, self._scripts = loop, settings, scripts
        self._groups = groups
        self._waiting = collections.deque(jobs)
        self._free_slots = list(range(min(settings.slots, most_slots())))
        self._supervisor = Supervisor(loop, settings)
        self._tries: dict[Attempt, tuple[Place, Try]] = {}

    def __iter__(self) -> Iterator[Event]:
        """Run the setup scripts, the jobs, and the groups one after the other."""
        others = children()
        try:
            for index, script in enumerate(self._scripts):
                if not self._supervisor.cancelled:
                    yield from self._run_script(script, index)
            yield from self._start_waiting()
            while self._tries:
                for notice in self._supervisor.turn():
                    yield from self._tell(notice)
                yield from self._start_waiting()
            for group in self._groups:
                if not self._supervisor.cancelled:
                    yield from SharedRun(self._loop, self._supervisor, self._settings, group)
        finally:
            killed = kill_descendants(others)
            self._supervisor.forget_all()
        yield Finished(killed, self._loop.now())

    def _run_script(self, script: Script, index: int) -> Iterator[Event]:
        """Run a setup script, and cancel the run unless it passes."""
        now, total = self._loop.now(), len(self._scripts)
        yield ScriptStarted(script, index, total, now)
        tried = Try(self._supervisor, self._settings, lambda ended, *_: by_status(ended))
        ending: Ending | None = None
        try:
            tried.start(script.program, Limits(self._settings.slow_after))
        except OSError as error:
            ending = not_started(error, now)
        while ending is None:
            for notice in self._supervisor.turn():
                match notice:
                    case CalledSlow(attempt, _, at):
                        yield ScriptSlow(script, attempt.elapsed(at), at)
                    case Over(attempt, outcome):
                        ending = tried.ending(attempt, outcome)
                    case _:
                        yield notice
        yield ScriptEnded(script, index, total, ending, self._loop.now())
        if ending.verdict is not Verdict.PASSED and not self._supervisor.cancelled:
            yield self._supervisor.cancel(CancelReason.SETUP_SCRIPT_FAILURE)

    @property
    def _total_attempts(self) -> int:
        return self._settings.retries + 1

    def _start_waiting(self) -> Iterator[Event]:
        """Start tests while there are free slots."""
        while self._waiting and self._free_slots and not self._supervisor.cancelled:
            slot = heapq.heappop(self._free_slots)
            yield from self._start(Place(self._waiting.popleft(), 1, slot))

    def _start(self, place: Place) -> Iterator[Event]:
        """Start an attempt of a test."""
        job, now = place.job, self._loop.now()
        tried = Try(self._supervisor, self._settings, functools.partial(by_test, job))
        limits = Limits(self._settings.slow_after, self._settings.timeout)
        failed: Ending | None = None
        try:
            attempt = tried.start(job.program, limits, job.log_file)
        except OSError as error:
            failed = not_started(error, now)
        else:
            self._tries[attempt] = (place, tried)
        yield Started(job, place.attempt, self._total_attempts, place.slot, now)
        if failed:
            yield from self._end(place, failed)

    def _tell(self, notice: Notice) -> Iterator[Event]:
        """Yield the events of what happened to an attempt, or to the run."""
        match notice:
            case CalledSlow(attempt, will_terminate, at):
                place, _ = self._tries[attempt]
                elapsed = attempt.elapsed(at)
                number, total = place.attempt, self._total_attempts
                yield Slow(place.job, number, total, elapsed, will_terminate, at)
            case Over(attempt, outcome):
                place, tried = self._tries.pop(attempt)
                yield from self._end(place, tried.ending(attempt, outcome))
            case _:
                yield notice

    def _end(self, place: Place, ending: Ending) -> Iterator[Event]:
        """Yield the end of an attempt, and retry the test in the same slot if it failed."""
        failed = ending.verdict is not Verdict.PASSED
        is_last = place.attempt == self._total_attempts or self._supervisor.cancelled
        again = place.attempt + 1 if failed and not is_last else None
        yield Ended(
            place.job,
            place.attempt,
            self._total_attempts,
            place.slot,
            ending,
            again,
            self._loop.now(),
        )
        if again:
            yield from self._start(dataclasses.replace(place, attempt=again))
            return
        heapq.heappush(self._free_slots, place.slot)
        ends_run = failed and self._settings.fail_fast and not place.job.may_fail
        if ends_run and not self._supervisor.cancelled:
            yield self._supervisor.cancel(CancelReason.TEST_FAILURE)
