"""The input and the output of the runner of processes: jobs, settings and events.

Instants are nanoseconds since 1970-01-01 UTC, by a clock that never goes back. Lengths are
nanoseconds too; those of attempts are without the pauses of the run.
"""

from __future__ import annotations

import dataclasses
import enum
from collections.abc import Mapping
from typing import NamedTuple

from rezovamy_runs.cut_outputs import FIRST
from rezovamy_runs.streams.messages import SECOND

MILLISECOND = SECOND // 1000


class Program(NamedTuple):
    """A program with its words, the directory it runs in, and the whole of its environment."""

    words: tuple[str | bytes, ...]
    directory: str
    environment: Mapping[bytes, bytes]


@dataclasses.dataclass(frozen=True)
class Job:
    """A test to run, as often as its retries say, each time as one process.

    With `log_file`, the runner adds `--logfile FILE` to the words. An attempt passes then if it
    exits with 0 and the file says `ok NAME`. Without it, the summary at the end of standard output
    must say that one test passed. If `runs_tests` is false, as for a target without libtest, only
    the exit status counts. With `may_fail`, its failure isn't one at which a run is to end.
    """

    binary_id: str
    test_name: str
    program: Program
    log_file: bool = False
    runs_tests: bool = True
    may_fail: bool = False


@dataclasses.dataclass(frozen=True)
class Group:
    """Tests that run in one process, as many of them at once as its words say.

    The program, with the words `arguments` besides, prints the events of libtest as JSON. `jobs`
    run those tests by themselves which a crash of the process leaves without a result; `others` are
    tests that are told and don't run. `itself` is the job that stands for the process. With
    `log_file`, the runner adds `--logfile FILE` before the arguments, and believes no result that
    the file doesn't have.
    """

    program: Program
    arguments: tuple[str, ...]
    jobs: tuple[Job, ...]
    itself: Job
    others: frozenset[str] = frozenset()
    log_file: bool = False


@dataclasses.dataclass(frozen=True)
class Script:
    """A setup script, which ends before the first test starts."""

    name: str
    program: Program


@dataclasses.dataclass(frozen=True)
class Settings:
    """How the tests of a run are run.

    A test is ended after `timeout` and called slow after `slow_after`, never if they are None.
    Between SIGTERM and SIGKILL there is `grace` after a timeout, and `cancel_grace` in a cancelled
    run. The outputs of a process may stay open for `leak_wait` after its end. Nothing happens for
    `tick` before there is a `Tick`.
    """

    slots: int
    retries: int = 0
    timeout: int | None = None
    slow_after: int | None = None
    fail_fast: bool = False
    output_limit: int = FIRST
    grace: int = 500 * MILLISECOND
    cancel_grace: int = 2 * SECOND
    leak_wait: int = 100 * MILLISECOND
    tick: int = 200 * MILLISECOND


class Captured(NamedTuple):
    """What was kept of an output: its first bytes, its last bytes, and its whole length.

    The two never overlap. There are no last bytes if the first ones are the whole output.
    """

    first: bytes = b""
    last: bytes = b""
    length: int = 0

    @property
    def left_out(self) -> int:
        """Return how many bytes between the first and the last were dropped."""
        return self.length - len(self.first) - len(self.last)

    def end(self, most: int) -> bytes:
        """Return at most this many of the last bytes, as far as they were kept."""
        if self.left_out or len(self.last) >= most:
            return self.last[-most:]
        return self.first[len(self.last) - most :] + self.last


class Exit(NamedTuple):
    """How a process ended: with an exit status, or by a signal."""

    status: int | None = None
    signal: int | None = None

    @property
    def is_success(self) -> bool:
        """Tell whether the process exited with 0."""
        return self.status == 0


class Verdict(enum.StrEnum):
    """How an attempt or a setup script ended."""

    PASSED = "passed"
    # The test said so itself; for a script, or without libtest, the exit status isn't 0.
    FAILED = "failed"
    # The process exited, with any status, before the test told its result.
    NO_RESULT = "no result"
    # A signal ended it that the runner didn't send.
    KILLED = "killed"
    TIMED_OUT = "timed out"
    # It was asked to end because the run was cancelled, and neither passed nor failed with 101.
    CANCELLED = "cancelled"
    # It couldn't be started.
    EXEC_FAILED = "exec failed"


class CancelReason(enum.StrEnum):
    """Why no further test starts."""

    SETUP_SCRIPT_FAILURE = "setup-script-failure"
    TEST_FAILURE = "test-failure"
    # SIGINT.
    INTERRUPT = "interrupt"
    # SIGTERM or SIGHUP.
    SIGNAL = "signal"
    # A second of these signals, which kills what still runs.
    SECOND_SIGNAL = "second-signal"


@dataclasses.dataclass(frozen=True)
class Started:
    """An attempt started. Attempts are counted from 1, slots from 0."""

    job: Job
    attempt: int
    total_attempts: int
    slot: int
    at: int


@dataclasses.dataclass(frozen=True)
class Slow:
    """An attempt has run for longer than usual.

    There is another one, with `will_terminate`, when it reaches the timeout and is ended.
    """

    job: Job
    attempt: int
    total_attempts: int
    elapsed: int
    will_terminate: bool
    at: int


@dataclasses.dataclass(frozen=True)
class Ending:
    """How a process ended, with what it printed.

    If the process couldn't be started, `exit` is None, and `error` says why. Else `error` is what
    is said besides. `leaked` means that another process held an output open for longer than the
    settings allow. `is_combined` means that `stdout` has both outputs.
    """

    verdict: Verdict
    exit: Exit | None
    started: int
    elapsed: int
    stdout: Captured = Captured()
    stderr: Captured = Captured()
    leaked: bool = False
    is_slow: bool = False
    error: str = ""
    is_combined: bool = False


@dataclasses.dataclass(frozen=True)
class Ended:
    """An attempt ended. `next_attempt` is None if the test isn't tried again."""

    job: Job
    attempt: int
    total_attempts: int
    slot: int
    ending: Ending
    next_attempt: int | None
    at: int


@dataclasses.dataclass(frozen=True)
class ScriptStarted:
    """A setup script started. Its index is counted from 0; `total` is how many there are."""

    script: Script
    index: int
    total: int
    at: int


@dataclasses.dataclass(frozen=True)
class ScriptSlow:
    """A setup script has run for longer than usual. No timeout ends it."""

    script: Script
    elapsed: int
    at: int


@dataclasses.dataclass(frozen=True)
class ScriptEnded:
    """A setup script ended. Unless it passed, a cancellation follows."""

    script: Script
    index: int
    total: int
    ending: Ending
    at: int


@dataclasses.dataclass(frozen=True)
class Printed:
    """A process of several tests has ended, and printed this outside of its tests."""

    job: Job
    stdout: Captured
    stderr: Captured
    at: int


@dataclasses.dataclass(frozen=True)
class Paused:
    """All processes of the run were stopped, and the front end stops now."""

    at: int


@dataclasses.dataclass(frozen=True)
class Continued:
    """The front end and all processes of the run go on."""

    at: int


@dataclasses.dataclass(frozen=True)
class Cancelled:
    """No further test starts, for this reason."""

    reason: CancelReason
    at: int


@dataclasses.dataclass(frozen=True)
class Tick:
    """Nothing happened for a moment. It is the time to show how far the run is."""

    at: int


@dataclasses.dataclass(frozen=True)
class Finished:
    """The run ended. `killed` counts the processes that tests had left, which were killed."""

    killed: int
    at: int


Event = (
    Started
    | Slow
    | Ended
    | ScriptStarted
    | ScriptSlow
    | ScriptEnded
    | Printed
    | Paused
    | Continued
    | Cancelled
    | Tick
    | Finished
)
