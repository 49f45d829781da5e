"""Runs a program once, with its outputs and its log file."""

from __future__ import annotations

from collections.abc import Callable

from rezovamy_runs.processes.attempt import Attempt, Limits
from rezovamy_runs.processes.child import STANDARD_ERROR, STANDARD_OUTPUT
from rezovamy_runs.processes.jobs import Captured, Ending, Exit, Program, Settings, Verdict
from rezovamy_runs.processes.logs import Log
from rezovamy_runs.processes.output import Capture
from rezovamy_runs.processes.supervisor import Supervisor
from rezovamy_runs.processes.verdicts import if_cancelled

# libtest says this of the option for the log file before anything else, without an end of line.
LOG_FILE_WARNING = b"warning: `--logfile` is deprecated"

# Judges how a process ended by its exit, its standard output and its log file.
Judge = Callable[[Exit, Captured, bytes], Verdict]


class Try:
    """A program that runs once, and what it writes."""

    def __init__(self, supervisor: Supervisor, settings: Settings, judge: Judge) -> None:
        self._supervisor, self._judge = supervisor, judge
        self._stdout, self._stderr = Capture(settings.output_limit), Capture(settings.output_limit)
        self._log: Log | None = None

    def start(self, program: Program, limits: Limits, log_file: bool = False) -> Attempt:
        """Start the program, with a log file if it has that option."""
        consumers = {STANDARD_OUTPUT: self._stdout.feed, STANDARD_ERROR: self._stderr.feed}
        if log_file:
            self._log = Log()
            program = program._replace(words=(*program.words, "--logfile", self._log.path))
        try:
            return self._supervisor.start(program, consumers, limits)
        except OSError:
            self._read_log()
            raise

    def _read_log(self) -> bytes:
        """Return what the log file says, if there is one."""
        return self._log.read_and_close() if self._log else b""

    def ending(self, attempt: Attempt, ended: Exit) -> Ending:
        """Return how the attempt ended."""
        stdout = self._stdout.captured()
        stderr = self._stderr.captured(LOG_FILE_WARNING if self._log else b"")
        verdict = self._judge(ended, stdout, self._read_log())
        if attempt.is_timed_out:
            verdict = Verdict.TIMED_OUT
        elif attempt.is_cancelled:
            verdict = if_cancelled(verdict, ended)
        return Ending(
            verdict,
            ended,
            attempt.started,
            attempt.elapsed(),
            stdout,
            stderr,
            leaked=attempt.leaked,
            is_slow=attempt.is_slow,
        )


def not_started(error: OSError, now: int) -> Ending:
    """Return how an attempt ended that couldn't be started."""
    return Ending(Verdict.EXEC_FAILED, None, now, 0, error=error.strerror or str(error))
