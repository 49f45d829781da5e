"""Makes the events of a session of what happens to the processes of a run."""

from __future__ import annotations

import dataclasses
import os
from collections.abc import Iterable, Iterator

from rezovamy_runs.json_values import JsonObject
from rezovamy_runs.processes.jobs import (
    Cancelled,
    CancelReason,
    Captured,
    Continued,
    Ended,
    Ending,
    Event,
    Finished,
    Job,
    Paused,
    Script,
    ScriptEnded,
    ScriptSlow,
    ScriptStarted,
    Slow,
    Started,
    Verdict,
)
from rezovamy_runs.runner.process_statuses import attempt_of, instance_of, status_of
from rezovamy_runs.streams.session_json import event, stats
from rezovamy_runs.streams.session_writer import CARGO_FAILED, length, moment
from rezovamy_runs.streams.texts import without_surrogates

SCRIPT_COUNTS = {
    Verdict.PASSED: "setup-scripts-passed",
    Verdict.EXEC_FAILED: "setup-scripts-exec-failed",
    Verdict.TIMED_OUT: "setup-scripts-timed-out",
}
TEST_COUNTS = {
    Verdict.PASSED: "passed",
    Verdict.EXEC_FAILED: "exec-failed",
    Verdict.TIMED_OUT: "failed-timed-out",
}
NOTHING = Captured()
# What a shell answers of a command that a signal has ended.
BY_SIGNAL = {CancelReason.INTERRUPT: 130, CancelReason.SIGNAL: 143}


@dataclasses.dataclass(frozen=True)
class RunName:
    """What a run is called: its id, its profile, and the words with which it was started."""

    run_id: str
    profile: str
    cli_args: list[str]


class ProcessSession:
    """The events of a run so far, and its numbers."""

    def __init__(
        self,
        name: RunName,
        jobs: Iterable[Job],
        skipped: Iterable[tuple[str, str]],
        scripts: int,
        begin: int,
    ) -> None:
        self.name, self.begin, self.end = name, begin, begin
        self.waiting = dict.fromkeys((job.binary_id, job.test_name) for job in jobs)
        self.counts = {**stats(len(self.waiting)), "setup-scripts-initial-count": scripts}
        self.cancelled: CancelReason | None = None
        self._skipped = list(skipped)
        self._first_reason: CancelReason | None = None
        # By the identity of the job: several may be of one test.
        self._before: dict[int, list[tuple[JsonObject, Ending]]] = {}
        self._running = self._scripts_running = 0

    def first_events(self) -> Iterator[JsonObject]:
        """Return the start of the run, and the tests that are skipped."""
        name = self.name
        yield self._event(
            "run-started",
            self.begin,
            run_id=name.run_id,
            profile_name=name.profile,
            cli_args=name.cli_args,
        )
        for binary_id, test_name in self._skipped:
            self.counts["skipped"] += 1
            instance = {"binary-id": binary_id, "test-name": test_name}
            yield self._event(
                "test-skipped",
                self.begin,
                test_instance=instance,
                reason="ignored",
                junit_report_skipped="all",
            )

    def events(self, told: Event) -> Iterator[JsonObject]:
        """Return the events of something that happened."""
        self.end = max(self.end, told.at)
        match told:
            case Started():
                yield self._started(told)
            case Slow():
                yield self._slow(told)
            case Ended():
                yield self._ended(told)
            case ScriptStarted() | ScriptSlow() | ScriptEnded():
                yield self._script(told)
            case Paused():
                yield self._whole_run("run-paused", told.at)
            case Continued():
                yield self._whole_run("run-continued", told.at)
            case Cancelled():
                yield self._cancelled(told)
            case Finished():
                yield self._finished(told)

    def _event(self, kind: str, at: int, **fields: object) -> JsonObject:
        return event(kind, moment(at), elapsed=length(at - self.begin), **fields)

    def _whole_run(self, kind: str, at: int, **fields: object) -> JsonObject:
        scripts, running = self._scripts_running, self._running
        return self._event(kind, at, setup_scripts_running=scripts, running=running, **fields)

    def _started(self, told: Started) -> JsonObject:
        self._running += 1
        self.waiting.pop((told.job.binary_id, told.job.test_name), None)
        self._before.setdefault(id(told.job), [])
        more: JsonObject = {"current_stats": dict(self.counts)}
        if told.attempt > 1:
            more = {"retry_data": retry_data(told)}
        return self._event(
            "test-retry-started" if told.attempt > 1 else "test-started",
            told.at,
            test_instance=instance_of(told.job),
            slot_assignment={"global-slot": told.slot, "test-group": "@global"},
            running=self._running,
            command_line=command_line(told.job.program.words),
            **more,
        )

    def _slow(self, told: Slow) -> JsonObject:
        return self._event(
            "test-slow",
            told.at,
            test_instance=instance_of(told.job),
            retry_data=retry_data(told),
            slow_elapsed=length(told.elapsed),
            will_terminate=told.will_terminate,
        )

    def _ended(self, told: Ended) -> JsonObject:
        """Return the end of an attempt, or of its test."""
        self._running -= 1
        before = self._before[id(told.job)]
        last = before[-1][1] if before else None
        status = attempt_of(told.ending, told.attempt, told.total_attempts, last)
        if told.next_attempt is not None:
            before.append(
                (status, dataclasses.replace(told.ending, stdout=NOTHING, stderr=NOTHING))
            )
            return self._event(
                "test-attempt-failed-will-retry",
                told.at,
                test_instance=instance_of(told.job),
                run_status=status,
                delay_before_next_attempt=length(0),
                failure_output="immediate",
                running=self._running,
            )
        self._count(told.ending, len(before) + 1)
        del self._before[id(told.job)]
        statuses = [*(status for status, _ in before), status]
        return self._event(
            "test-finished",
            told.at,
            test_instance=instance_of(told.job),
            success_output="never",
            failure_output="immediate",
            junit_store_success_output=False,
            junit_store_failure_output=True,
            junit_flaky_fail_status="failure",
            run_statuses={"statuses": statuses, "flaky-result": "pass"},
            current_stats=dict(self.counts),
            running=self._running,
        )

    def _count(self, ending: Ending, attempts: int) -> None:
        """Count a test by its last attempt."""
        counts, verdict = self.counts, ending.verdict
        counted = TEST_COUNTS.get(verdict, "failed")
        counts["finished-count"] += 1
        counts[counted] += 1
        if ending.is_slow and counted in ("passed", "failed"):
            counts[f"{counted}-slow"] += 1
        if verdict is Verdict.PASSED:
            counts["leaky"] += ending.leaked
            counts["flaky"] += attempts > 1

    def _script(self, told: ScriptStarted | ScriptSlow | ScriptEnded) -> JsonObject:
        """Return what happened to a setup script."""
        named = script_members(told.script)
        if isinstance(told, ScriptSlow):
            slow = length(told.elapsed)
            return self._event(
                "setup-script-slow", told.at, slow_elapsed=slow, will_terminate=False, **named
            )
        more: JsonObject = {"index": told.index, "total": told.total, "no_capture": False}
        if isinstance(told, ScriptStarted):
            self._scripts_running = 1
            return self._event("setup-script-started", told.at, **named, **more)
        self._scripts_running = 0
        self.counts["setup-scripts-finished-count"] += 1
        self.counts[SCRIPT_COUNTS.get(told.ending.verdict, "setup-scripts-failed")] += 1
        status = status_of(told.ending)
        return self._event("setup-script-finished", told.at, **named, **more, run_status=status)

    def _cancelled(self, told: Cancelled) -> JsonObject:
        self.cancelled = told.reason
        if self._first_reason is None or self._first_reason not in BY_SIGNAL:
            self._first_reason = told.reason
        return self._whole_run("run-begin-cancel", told.at, reason=str(told.reason))

    def _finished(self, told: Finished) -> JsonObject:
        counts: JsonObject = dict(self.counts)
        if self.cancelled:
            counts["cancel-reason"] = str(self.cancelled)
        unseen = [{"binary-id": one, "test-name": test} for one, test in self.waiting]
        missing = {"not-seen": unseen, "total-not-seen": len(unseen)}
        return self._event(
            "run-finished",
            told.at,
            run_id=self.name.run_id,
            start_time=moment(self.begin),
            run_elapsed=length(told.at - self.begin),
            run_stats={"single": counts},
            **({"outstanding_not_seen": missing} if unseen else {}),
        )

    @property
    def failures(self) -> int:
        """Return how many tests failed, in whatever way."""
        return sum(self.counts[name] for name in ("failed", "failed-timed-out", "exec-failed"))

    @property
    def status(self) -> int:
        """Return the exit status of the run."""
        if self._first_reason in BY_SIGNAL:
            return BY_SIGNAL[self._first_reason]
        return CARGO_FAILED if self.failures or self.cancelled else 0

    def status_of_run(self) -> JsonObject:
        """Return how the run ended, for the head."""
        return {
            "status": "cancelled" if self.cancelled else "completed",
            "initial-run-count": self.counts["initial-run-count"],
            "passed": self.counts["passed"],
            "failed": self.failures,
            "exit-code": self.status,
        }


def retry_data(told: Started | Slow) -> dict[str, int]:
    """Return which attempt of a test this is."""
    return {"attempt": told.attempt, "total-attempts": told.total_attempts}


def command_line(words: Iterable[str | bytes]) -> list[str]:
    """Return the words of a program as texts."""
    return [without_surrogates(os.fsdecode(word)) for word in words]


def script_members(script: Script) -> JsonObject:
    """Return what names a setup script in an event."""
    program, *args = command_line(script.program.words)
    return {"script_id": script.name, "program": program, "args": args}
