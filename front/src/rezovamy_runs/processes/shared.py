"""Runs tests in one process, and those by themselves that its crash leaves without a result."""

from __future__ import annotations

import dataclasses
import functools
import heapq
from collections.abc import Generator, Iterator

from rezovamy_runs.processes.attempt import Limits
from rezovamy_runs.processes.child import STANDARD_ERROR, STANDARD_OUTPUT
from rezovamy_runs.processes.event_lines import EventLine, EventLines, LogLines
from rezovamy_runs.processes.jobs import (
    Captured,
    Ended,
    Ending,
    Event,
    Exit,
    Group,
    Job,
    Printed,
    Settings,
    Slow,
    Started,
    Verdict,
)
from rezovamy_runs.processes.logs import Log
from rezovamy_runs.processes.loop import Loop
from rezovamy_runs.processes.output import Capture
from rezovamy_runs.processes.supervisor import CalledSlow, Notice, Over, Supervisor
from rezovamy_runs.processes.tries import LOG_FILE_WARNING, Try, not_started
from rezovamy_runs.processes.verdicts import LIBTEST_FAILED, by_test
from rezovamy_runs.streams.messages import TestEvent

LOST = "another test broke the line that has its output, so the output is missing"
CANCELLED = "the run was cancelled before this attempt started"
HELD = "its process held what it printed, which is lost"
ENDINGS = {"ok": Verdict.PASSED, "failed": Verdict.FAILED}
EXITS = {Verdict.PASSED: Exit(0), Verdict.FAILED: Exit(LIBTEST_FAILED)}
MOST_NAMES = 9


@dataclasses.dataclass(frozen=True)
class Running:
    """A test that runs: its slot, when it started, and how long its process had run then."""

    job: Job
    slot: int
    started: int
    process_elapsed: int


class SharedRun:
    """The run of a group, as the events that happen.

    A result is that of the log file. A test without one, whose process has ended, runs once more by
    itself. Only what fails then has failed. What failed is tried again by itself too, after the
    process has ended, since it may share state with what runs there. A test that reaches the
    timeout ends its process, and is the only one that timed out.
    """

    def __init__(
        self, loop: Loop, supervisor: Supervisor, settings: Settings, group: Group
    ) -> None:
        self._loop, self._supervisor, self._settings = loop, supervisor, settings
        self._group = group
        self._waiting = {job.test_name: job for job in group.jobs}
        self._running: dict[str, Running] = {}
        self._free_slots: list[int] = []
        self._slow: set[str] = set()
        self._timed_out: set[str] = set()
        self._failed = 0
        self._total_attempts = settings.retries + 1
        # Failed in the process, and tried again once that has ended.
        self._tried_again: list[Job] = []
        self._lines = EventLines(settings.output_limit)
        self._stderr = Capture(settings.output_limit)
        self._log = Log() if group.log_file else None
        self._log_lines = LogLines(self._waiting)

    def __iter__(self) -> Iterator[Event]:
        """Run the process, and then the tests that it left."""
        program = self._group.program
        log = ("--logfile", self._log.path) if self._log else ()
        program = program._replace(words=(*program.words, *log, *self._group.arguments))
        consumers = {STANDARD_OUTPUT: self._lines.feed, STANDARD_ERROR: self._stderr.feed}
        begin = self._loop.now()
        try:
            self._process = self._supervisor.start(program, consumers)
        except OSError as error:
            yield from self._end_itself(not_started(error, begin))
        else:
            yield from self._watch()
        finally:
            if self._log:
                self._log.read_and_close()

    def _watch(self) -> Iterator[Event]:
        """Watch the process until it is over, and see to what it leaves."""
        outcome: Exit | None = None
        while outcome is None:
            for notice in self._supervisor.turn():
                yield from self._read_events(notice.at)
                match notice:
                    case Over(_, ended):
                        outcome = ended
                    case CalledSlow():
                        pass
                    case _:
                        yield notice
            now = self._loop.now()
            yield from self._read_events(now)
            if self._settings.timeout is not None and not self._timed_out:
                yield from self._mind_timeout(self._settings.timeout, now)
        self._lines.finish()
        yield from self._finish(outcome)

    def _mind_timeout(self, timeout: int, now: int) -> Iterator[Event]:
        """End the process if tests have reached the timeout, or wait for the next that may."""
        ran = {name: self._ran(running, now) for name, running in self._running.items()}
        late = [name for name in ran if ran[name] >= timeout and not self._result_of(name)]
        for name in late:
            yield Slow(self._running[name].job, 1, self._total_attempts, ran[name], True, now)
        if late:
            self._timed_out.update(late)
            self._process.time_out(now)
            return
        longest = max((length for length in ran.values() if length < timeout), default=None)
        self._process.call_slow_at(None if longest is None else now + timeout - longest)

    def _ran(self, running: Running, now: int = 0) -> int:
        """Return how long a test has run by now or until its process ended, without pauses."""
        return max(0, self._process.elapsed(now) - running.process_elapsed)

    def _read_events(self, at: int) -> Iterator[Event]:
        """Read what the process has told."""
        for found in self._lines.events():
            told = list(self._told(found, at))
            yield from told
            if not told and found.event.name not in self._group.others:
                self._lines.text.add(found.line)

    def _told(self, found: EventLine, at: int) -> Iterator[Event]:
        """Return what an event tells; nothing if it isn't believed."""
        event = found.event
        running = self._running.get(event.name)
        if event.kind == "started" and event.name in self._waiting:
            yield self._start(event.name, at)
        elif running and event.kind == "timeout":
            self._slow.add(event.name)
            elapsed = self._ran(running, at)
            yield Slow(running.job, 1, self._total_attempts, elapsed, False, at)
        elif running and event.name not in self._timed_out and self._is_result(event):
            error = event.message or ""
            yield self._end(running, ENDINGS[event.kind], at, found.output, error)

    def _is_result(self, event: TestEvent) -> bool:
        """Tell whether an event is the end of a test, as the log file has it."""
        said = ENDINGS.get(event.kind)
        return said is not None and (self._log is None or self._result_of(event.name) is said)

    def _result_of(self, name: str) -> Verdict | None:
        """Return how a test ended by the log file."""
        if self._log:
            self._log_lines.feed(self._log.read())
        return self._log_lines.result_of(name)

    def _start(self, name: str, at: int) -> Started:
        """Start a test on the first free slot."""
        job, used = self._waiting.pop(name), len(self._running)
        slot = heapq.heappop(self._free_slots) if self._free_slots else used
        self._running[name] = Running(job, slot, at, self._process.elapsed(at))
        return Started(job, 1, self._total_attempts, slot, at)

    def _end(
        self, running: Running, verdict: Verdict, at: int, output: Captured, error: str
    ) -> Ended:
        """End a test whose result is known."""
        ending = Ending(
            verdict,
            EXITS[verdict],
            running.started,
            self._ran(running, at),
            output,
            is_slow=running.job.test_name in self._slow,
            error=error,
            is_combined=True,
        )
        self._failed += verdict is not Verdict.PASSED
        return self._ended(running, ending)

    def _ended(self, running: Running, ending: Ending) -> Ended:
        """Take a test off its slot, and note it if it is tried again."""
        del self._running[running.job.test_name]
        heapq.heappush(self._free_slots, running.slot)
        ended = self._attempt_ended(running.job, 1, running.slot, ending)
        if ended.next_attempt:
            self._tried_again.append(running.job)
        return ended

    def _attempt_ended(self, job: Job, attempt: int, slot: int, ending: Ending) -> Ended:
        """Return the end of an attempt, which another one follows if it failed."""
        total = self._total_attempts
        is_last = attempt == total or self._supervisor.cancelled is not None
        again = None if is_last or ending.verdict is Verdict.PASSED else attempt + 1
        return Ended(job, attempt, total, slot, ending, again, self._loop.now())

    def _finish(self, outcome: Exit) -> Iterator[Event]:
        """See to what the process left, which ended so."""
        yield from self._end_by_log()
        yield from self._end_timed_out(outcome)
        yield from self._settle(outcome)
        for job in self._tried_again:
            yield from self._try_again(job)

    def _settle(self, outcome: Exit) -> Iterator[Event]:
        """Run the suspects of a crash by themselves, and tell what is said of the process."""
        suspects, failed = list(self._running.values()), self._failed
        for running in suspects:
            if self._supervisor.cancelled:
                yield self._ended(running, self._ending_of(Verdict.CANCELLED, outcome, running))
            else:
                yield from self._run_alone(running, suspects, outcome)
        if self._supervisor.cancelled:
            return
        is_explained = self._timed_out or self._failed > failed
        said = "" if is_explained else self._fault(suspects, outcome)
        if said:
            yield from self._end_itself(self._ending_of(Verdict.NO_RESULT, outcome, None, said))
            return
        stdout, stderr = self._printed()
        if (stdout.first + stderr.first).strip():
            yield Printed(self._group.itself, stdout, stderr, self._loop.now())

    def _end_by_log(self) -> Iterator[Event]:
        """End the tests whose results only the log file has."""
        now = self._loop.now()
        for name in [*self._running, *self._waiting]:
            verdict = None if name in self._timed_out else self._result_of(name)
            if verdict and name in self._waiting:
                yield self._start(name, now)
            if verdict:
                error = "" if verdict is Verdict.PASSED else LOST
                yield self._end(self._running[name], verdict, now, Captured(), error)

    def _end_timed_out(self, outcome: Exit) -> Iterator[Event]:
        """End the tests that reached the timeout."""
        for name in sorted(self._timed_out):
            running = self._running[name]
            self._failed += 1
            yield self._ended(running, self._ending_of(Verdict.TIMED_OUT, outcome, running, HELD))

    def _run_alone(
        self, running: Running, suspects: list[Running], outcome: Exit
    ) -> Iterator[Event]:
        """Run a suspect by itself."""
        ending = yield from self._alone(running.job)
        if ending.verdict is Verdict.PASSED:
            said = f"ran beside {self._accident(running, suspects, outcome)}"
            ending = dataclasses.replace(ending, error=f"{said}; by itself it passed")
        else:
            self._failed += 1
        yield self._ended(running, ending)

    def _accident(self, running: Running, suspects: list[Running], outcome: Exit) -> str:
        """Return what a test ran beside that has no result."""
        if self._timed_out:
            late = shortened(sorted(self._timed_out))
            return f"a timeout: its process was ended since {late} ran for too long"
        return f"a crash: its process {how(outcome)}{beside(running, suspects)}"

    def _try_again(self, job: Job) -> Iterator[Event]:
        """Run a test by itself until it passes or has no attempt left."""
        next_attempt: int | None = 2
        while next_attempt:
            yield Started(job, next_attempt, self._total_attempts, 0, self._loop.now())
            ending = yield from self._alone(job)
            ended = self._attempt_ended(job, next_attempt, 0, ending)
            next_attempt = ended.next_attempt
            yield ended

    def _alone(self, job: Job) -> Generator[Event, None, Ending]:
        """Run a test by itself, and return how it ended."""
        now = self._loop.now()
        if self._supervisor.cancelled:
            return Ending(Verdict.EXEC_FAILED, None, now, 0, error=CANCELLED)
        tried = Try(self._supervisor, self._settings, functools.partial(by_test, job))
        ending: Ending | None = None
        try:
            tried.start(job.program, Limits(timeout=self._settings.timeout), job.log_file)
        except OSError as error:
            ending = not_started(error, now)
        while ending is None:
            for notice in self._supervisor.turn():
                ended = ending_of(notice, tried)
                ending = ending or ended
                if not isinstance(notice, Over | CalledSlow):
                    yield notice
        return ending

    def _fault(self, suspects: list[Running], outcome: Exit) -> str:
        """Return why the process itself failed; nothing if it ended as its tests did."""
        if suspects:
            names = shortened([running.job.test_name for running in suspects])
            each = "which pass by themselves" if len(suspects) > 1 else "which passes by itself"
            return f"the process {how(outcome)} while it ran {names}, {each}"
        expected = EXITS[Verdict.FAILED if self._failed else Verdict.PASSED]
        if outcome == expected and not self._waiting:
            return ""
        return f"the process {how(outcome)} while it ran no test"

    def _ending_of(
        self, verdict: Verdict, outcome: Exit, running: Running | None, said: str = ""
    ) -> Ending:
        """Return an ending that is that of the process."""
        begin = running.started if running else self._process.started
        taken = self._ran(running) if running else max(0, self._process.elapsed())
        outputs = self._printed() if running is None else (Captured(), Captured())
        if verdict is Verdict.NO_RESULT and outcome.signal is not None:
            verdict = Verdict.KILLED
        return Ending(verdict, outcome, begin, taken, *outputs, error=said)

    def _end_itself(self, ending: Ending) -> Iterator[Event]:
        """Tell a failure of the process, as one of the test that stands for it."""
        job, slot = self._group.itself, len(self._running)
        yield Started(job, 1, 1, slot, self._loop.now())
        yield Ended(job, 1, 1, slot, ending, None, self._loop.now())

    def _printed(self) -> tuple[Captured, Captured]:
        """Return what was printed outside of tests."""
        warning = LOG_FILE_WARNING if self._log else b""
        return self._lines.text.captured(), self._stderr.captured(warning)


def ending_of(notice: Notice, tried: Try) -> Ending | None:
    """Return how a try ended, if a notice tells it."""
    return tried.ending(notice.attempt, notice.outcome) if isinstance(notice, Over) else None


def how(outcome: Exit) -> str:
    """Return how a process ended, after its name."""
    if outcome.signal is not None:
        return f"was ended by signal {outcome.signal}"
    return f"exited with status {outcome.status}"


def beside(running: Running, others: list[Running]) -> str:
    """Return which tests ran beside one."""
    names = [other.job.test_name for other in others if other is not running]
    return f" while it and {shortened(names)} ran" if names else " while it ran"


def shortened(names: list[str]) -> str:
    """Return the first names, and how many more there are."""
    more = len(names) - MOST_NAMES
    return ", ".join(names[:MOST_NAMES]) + (f" and {more} more" if more > 0 else "")
