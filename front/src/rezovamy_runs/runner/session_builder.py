"""Makes a session of the lines of a test run while they come."""

from __future__ import annotations

import dataclasses
import hashlib
import uuid

from rezovamy_runs.faults.fault import Fault
from rezovamy_runs.json_values import JsonObject
from rezovamy_runs.runner import missing_tests
from rezovamy_runs.runner.rerun_plan import Plan
from rezovamy_runs.streams import verdicts
from rezovamy_runs.streams.clock import Clock
from rezovamy_runs.streams.reader import Reader
from rezovamy_runs.streams.run_state import CancelReason, Console
from rezovamy_runs.streams.session_json import text
from rezovamy_runs.streams.session_writer import (
    CANCELLED_STATUS,
    NEXTEST_FAILED,
    NEXTEST_VERSION,
    SessionLines,
    SessionOptions,
    Suites,
    session_lines,
)
from rezovamy_runs.streams.targets import Targets

# What cargo answers of words that it doesn't take; of a build that fails it is another status.
REFUSED = 1


@dataclasses.dataclass(frozen=True)
class Session:
    """The session of a run, and the status with which its tests ended.

    `suites` are the tests that ran or were skipped, by binary.
    """

    run_id: str
    data: bytes
    status: int
    suites: Suites


class SessionBuilder:
    """Reads the lines of a run, and makes a session of them.

    Where the instants aren't those at which lines come, the same lines give the same run id.
    """

    def __init__(self, clock: Clock, console: Console, targets: Targets | None = None) -> None:
        self.reader = Reader(clock, console, targets or Targets())
        self._digest = hashlib.sha256()
        self._is_repeatable = clock.source is None

    def read(self, line: bytes) -> None:
        """Take the next line."""
        self._digest.update(line)
        self.reader.read(line)

    def finish(self, status: int | None, cancel_reason: CancelReason | None) -> None:
        """Take the end of the lines. The status is cargo's, None where it isn't known."""
        self.reader.finish(status, cancel_reason)

    def has_events(self) -> bool:
        """Return whether a line was an event of a run."""
        return self.reader.run.first_event is not None

    def has_failed_build(self) -> bool:
        """Return whether a build failed."""
        return any(test.name == verdicts.BUILD for test in self.reader.run.timeline.tests)

    def run_id(self) -> str:
        """Return an id for the run."""
        if self._is_repeatable:
            return str(uuid.uuid5(uuid.NAMESPACE_OID, self._digest.hexdigest()))
        return str(uuid.uuid4())

    def lines(self, options: SessionOptions) -> SessionLines:
        """Return the lines of the session, once they are finished."""
        return session_lines(self.reader.run, options)

    def session(
        self,
        status: int | None,
        cancel_reason: CancelReason | None,
        profile: str,
        cli_args: list[str],
        plan: Plan | None = None,
    ) -> Session:
        """Return the session of the lines that came, of a rerun with its plan.

        It is a fault where there is nothing to record. The status is cargo's, None where it isn't
        known.
        """
        self.finish(status, cancel_reason)
        self._refuse_nothing(status)
        if plan:
            missing_tests.forget_tests(plan, self.reader.run)
        run_id = self.run_id()
        # Cargo answers 0 where a test ended its process with 0, and that test has failed.
        exit_code = status or None
        made = self.lines(SessionOptions(run_id, profile, NEXTEST_VERSION, exit_code, cli_args))
        head = {**made.head, **(members_of_rerun(plan, made.suites) if plan else {})}
        data = "".join(f"{text(value)}\n" for value in (head, *made.events)).encode()
        # Where the end of a run of `nextest` wasn't told, the status is that of what was seen.
        seen = status or (NEXTEST_FAILED if self.reader.run.has_failures() else 1)
        ended = seen if made.exit_code is None else made.exit_code
        return Session(run_id, data, ended, made.suites)

    def _refuse_nothing(self, status: int | None) -> None:
        """Raise the fault of a run in which no test ran and no build was tried."""
        run = self.reader.run
        if not self.has_events() and run.cancel_reason:
            raise Fault(
                "the run was broken off before a test ran, so nothing is recorded",
                CANCELLED_STATUS[run.cancel_reason],
            )
        if not self.has_events():
            nothing = "no test ran, so nothing is recorded"
            raise Fault(f"{nothing}: see what stands above, and what was asked for", status or 1)
        if status == REFUSED and all(test.name == verdicts.BUILD for test in run.timeline.tests):
            # Nothing was built, so no build is said to have failed.
            run.timeline.tests.clear()
            raise Fault(
                "cargo didn't take its words, so nothing is recorded: "
                "see what stands above, and correct them",
                status,
            )


def members_of_rerun(plan: Plan, suites: Suites) -> JsonObject:
    """Return what the head of a rerun has besides.

    It is which run it reruns with what came of it, and that run's tests in the test list.
    """
    return {
        "parent-run-id": plan.info["parent-run-id"],
        "rerun-info": plan.info,
        "test-list": {"suites": plan.listed(suites)},
    }
