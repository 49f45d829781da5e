"""Shows a run of processes while it goes on: how far it is, and each failure with its output."""

from __future__ import annotations

from rezovamy_runs import formatting
from rezovamy_runs.bundles import statuses
from rezovamy_runs.model import Attempt, Script, Test
from rezovamy_runs.model import Verdict as TestVerdict
from rezovamy_runs.processes.jobs import (
    Cancelled,
    CancelReason,
    Ended,
    Ending,
    Event,
    Finished,
    Paused,
    Printed,
    ScriptEnded,
    Slow,
    Started,
    Verdict,
)
from rezovamy_runs.quarantine import NOTHING, Quarantine
from rezovamy_runs.report.run_text import Printer
from rezovamy_runs.runner.process_statuses import errors_in, result_of, shown
from rezovamy_runs.runner.progress import ProgressLine, counted, longest_of

MOST_LINES = 200
REASONS = {
    CancelReason.SETUP_SCRIPT_FAILURE: "a setup script failed",
    CancelReason.TEST_FAILURE: "a test failed",
    CancelReason.INTERRUPT: "the run was interrupted",
    CancelReason.SIGNAL: "a signal asked the run to end",
    CancelReason.SECOND_SIGNAL: "a second signal killed what ran",
}
SECOND = 1e9


class ProcessProgress:
    """Prints failures as they come, and below them how far the run is."""

    def __init__(
        self, known: int, line: ProgressLine | None = None, quarantine: Quarantine = NOTHING
    ) -> None:
        self._known = known
        self._line = line or ProgressLine()
        self._printer = Printer(self._line.paint, MOST_LINES, quarantine=quarantine)
        self._ended = self._failed = 0
        # By the identity of the job: what runs, and since when.
        self._running: dict[int, tuple[str, int]] = {}

    def show(self, told: Event) -> None:
        """Show something that happened."""
        match told:
            case Started():
                self._running[id(told.job)] = (told.job.test_name, told.at)
            case Ended():
                self._end(told)
            case ScriptEnded() if told.ending.verdict is not Verdict.PASSED:
                self._print_script(told)
            case Slow() if not told.will_terminate:
                name = formatting.name(f"{told.job.binary_id} {told.job.test_name}")
                taken = formatting.duration(told.elapsed / SECOND)
                self._line.print_lines([f"{self._line.paint('yellow', 'SLOW')} [{taken}] {name}"])
            case Printed():
                self._print_outputs(told)
            case Cancelled():
                self._line.print_lines([f"no further test starts: {REASONS[told.reason]}"])
            case Paused():
                self._line.erase()
            case Finished():
                self._line.erase()
                if told.killed:
                    left = "a process" if told.killed == 1 else f"{told.killed} processes"
                    self._line.print_lines([f"tests had left {left} running, now killed"])
        if not isinstance(told, Finished | Paused) and self._line.is_due():
            self._line.draw(self._text(told.at))

    def _end(self, told: Ended) -> None:
        """Take the end of an attempt, and print it if it failed."""
        self._running.pop(id(told.job), None)
        passed = told.ending.verdict is Verdict.PASSED
        if told.next_attempt is None:
            self._ended += 1
            self._failed += not passed
        if passed and told.ending.error:
            name = formatting.name(f"{told.job.binary_id} {told.job.test_name}")
            self._line.print_lines([f"{name}: {formatting.harmless(told.ending.error)}"])
        if not passed:
            attempt = attempt_of(told.ending, told.attempt, told.total_attempts)
            test = Test(told.job.binary_id, told.job.test_name, TestVerdict.FAIL, (attempt,))
            self._line.print_lines(self._printer.test(test, False))

    def _print_outputs(self, told: Printed) -> None:
        """Print what a process printed outside of its tests."""
        name = formatting.name(told.job.binary_id)
        printed = Attempt(1, 1, 0.0, stdout=shown(told.stdout), stderr=shown(told.stderr))
        lines = self._printer.outputs(printed)
        self._line.print_lines([f"{name} printed outside of its tests:", *lines])

    def _print_script(self, told: ScriptEnded) -> None:
        """Print a setup script that failed."""
        script = Script(told.script.name, told.index, "", (), attempt_of(told.ending, 1, 1))
        self._line.print_lines(self._printer.scripts([script], False))

    def _text(self, now: int) -> str:
        """Return how far the run is, in few words on a narrow terminal."""
        line = counted(self._ended, self._known, self._failed)
        is_narrow = not self._line.fits(line + longest_of("", 0, 0))
        if is_narrow:
            line = f"{self._ended}/{self._known}, {self._failed} failed"
        if not self._running:
            return line
        name, since = min(self._running.values(), key=lambda running: running[1])
        if is_narrow:
            return f"{line}; {formatting.name(name)} {formatting.duration((now - since) / SECOND)}"
        return line + longest_of(name, now - since, len(self._running) - 1)


def attempt_of(ending: Ending, number: int, total: int) -> Attempt:
    """Return an attempt as the recording will tell it."""
    result, detail = statuses.result_of(result_of(ending))
    errors = errors_in(ending) if ending.exit else [ending.error]
    return Attempt(
        number,
        total,
        ending.started / SECOND,
        result=result,
        detail=detail,
        seconds=ending.elapsed / SECOND,
        is_slow=ending.is_slow,
        stdout=None if ending.is_combined else shown(ending.stdout),
        stderr=None if ending.is_combined else shown(ending.stderr),
        combined=shown(ending.stdout) if ending.is_combined else None,
        errors="\n".join(errors) or None,
    )
