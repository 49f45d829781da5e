"""Runs the tests of calls of `cargo test`, each as a process, and makes a session of the run."""

from __future__ import annotations

import dataclasses
import os
import pathlib
import uuid
from collections.abc import Callable, Sequence

from rezovamy_runs.collecting import cargo_call, sharding, test_words
from rezovamy_runs.collecting.collect import Collector, Listed, jobs_of
from rezovamy_runs.collecting.groups import groups_of
from rezovamy_runs.collecting.records import own_environment
from rezovamy_runs.faults.fault import Fault
from rezovamy_runs.json_values import JsonObject
from rezovamy_runs.processes.jobs import Job, Program, Script, Settings
from rezovamy_runs.processes.loop import Loop
from rezovamy_runs.processes.run import Run
from rezovamy_runs.model import TestName
from rezovamy_runs.quarantine import NOTHING, Quarantine
from rezovamy_runs.runner import missing_tests
from rezovamy_runs.runner.live_recorder import LiveRecorder
from rezovamy_runs.runner.process_progress import ProcessProgress
from rezovamy_runs.runner.process_session import ProcessSession, RunName
from rezovamy_runs.runner.rerun_plan import Plan
from rezovamy_runs.runner.session_builder import members_of_rerun
from rezovamy_runs.store.live_folder import LiveFolder
from rezovamy_runs.store.notes import RunNotes, Shard
from rezovamy_runs.store.run_folder import Store
from rezovamy_runs.streams.session_json import HEAD
from rezovamy_runs.streams.session_writer import NEXTEST_VERSION, Suites, length, moment

THREADS = "RUST_TEST_THREADS"


@dataclasses.dataclass(frozen=True)
class RunOptions:
    """How tests are run; lengths are nanoseconds. `scripts` are names and commands of a shell."""

    retries: int = 0
    timeout: int | None = None
    slow_after: int | None = None
    test_threads: int | None = None
    fail_fast: bool = False
    shared: bool = False
    scripts: tuple[tuple[str, str], ...] = ()
    # The shard whose tests alone run, None if all do.
    shard: Shard | None = None
    quarantine: Quarantine = NOTHING

    def settings(self, words: Sequence[str]) -> Settings:
        """Return the settings of a run with these words of `cargo test`."""
        return Settings(
            self.test_threads or slots_of(words),
            self.retries,
            self.timeout,
            self.slow_after,
            self.fail_fast,
        )

    def excused(self, job: Job) -> Job:
        """Return a job, which may fail if its test is in quarantine."""
        is_excused = TestName(job.binary_id, job.test_name) in self.quarantine
        return dataclasses.replace(job, may_fail=True) if is_excused else job

    def setup_scripts(self) -> list[Script]:
        """Return the setup scripts, which run in the current folder."""
        environment, folder = own_environment(), os.getcwd()
        return [
            Script(name, Program(("sh", "-c", command), folder, environment))
            for name, command in self.scripts
        ]


def slots_of(words: Sequence[str]) -> int:
    """Return how many tests run at once: as the words, the environment or the machine say."""
    own = test_words.read(cargo_call.read(words).of_tests).threads
    for number in (own, os.environ.get(THREADS)):
        if number and number.isascii() and number.isdigit() and int(number):
            return int(number)
    return len(os.sched_getaffinity(0))


@dataclasses.dataclass(frozen=True)
class Recordable:
    """A run that ended: its status, its tests by binary, its recording, and the last head."""

    status: int
    suites: Suites
    recording: LiveRecorder
    head: JsonObject

    def record(self) -> pathlib.Path:
        """Finish the recording, and return the path of the bundle."""
        return self.recording.finish(self.head)


class ProcessRun:
    """The run of the tests of some calls of `cargo test`; of a rerun with its plan."""

    def __init__(
        self,
        calls: Sequence[Sequence[str]],
        options: RunOptions,
        profile: str,
        cli_args: list[str],
        plan: Plan | None = None,
    ) -> None:
        self._calls, self._options, self._plan = calls, options, plan
        self._name = RunName(str(uuid.uuid4()), profile, cli_args)

    @property
    def run_id(self) -> str:
        """Return the id of the run."""
        return self._name.run_id

    def run(self, store: Store, known: Callable[[Suites, float], RunNotes]) -> Recordable:
        """Collect the tests, run them, and record what happens; the recording is to be finished.

        `known` says what to note of the run, by its tests and how long they were built.
        """
        with Loop() as loop:
            collector = Collector(loop, asks_for_all=self._plan is not None)
            collected = [one for call in self._calls for one in collector.collect(call)]
            shard = self._options.shard
            listed = [sharding.of_shard(one, shard) for one in collected] if shard else collected
            if not listed:
                nothing = "no test ran, so nothing is recorded"
                raise Fault(f"{nothing}: see what stands above, and what was asked for", 1)
            if self._plan:
                forget_tests(self._plan, listed)
            store.note(self.run_id, known(suites_of(listed), collector.build_seconds))
            return self._run_listed(loop, store, listed)

    def _run_listed(self, loop: Loop, store: Store, listed: Sequence[Listed]) -> Recordable:
        """Run the tests, show what happens, and record it."""
        groups = groups_of(listed) if self._options.shared else []
        jobs, scripts = jobs_of(listed), self._options.setup_scripts()
        in_groups = {id(job) for group in groups for job in group.jobs}
        alone = [self._options.excused(job) for job in jobs if id(job) not in in_groups]
        skipped = [(one.binary.target.id, name) for one in listed for name in one.ignored]
        session = ProcessSession(self._name, jobs, skipped, len(scripts), loop.now())
        suites = suites_of(listed)
        progress = ProcessProgress(len(jobs), quarantine=self._options.quarantine)
        head = self._head(session, suites)
        settings = self._options.settings(self._calls[0])
        with LiveRecorder(loop, LiveFolder(store, self._name.run_id), head) as recording:
            recording.write(session.first_events())
            for told in Run(loop, alone, settings, scripts, groups):
                # What was shown is recorded, unless it is lost within the next moment.
                recording.write(session.events(told))
                progress.show(told)
        return Recordable(session.status, suites, recording, {**head, **end_of(session)})

    def _head(self, session: ProcessSession, suites: Suites) -> JsonObject:
        """Return the head of the session, as far as it is known before the run ends."""
        name = self._name
        return {
            **HEAD,
            "run-id": name.run_id,
            "nextest-version": NEXTEST_VERSION,
            "status": {"status": "incomplete"},
            "started-at": moment(session.begin),
            "last-written-at": moment(session.begin),
            "test-list": {"suites": suites},
            "cli-args": name.cli_args,
            **(members_of_rerun(self._plan, suites) if self._plan else {}),
        }


def end_of(session: ProcessSession) -> JsonObject:
    """Return what the head of the session has besides once the run has ended."""
    return {
        "status": session.status_of_run(),
        "last-written-at": moment(session.end),
        "duration": length(session.end - session.begin),
    }


def suites_of(listed: Sequence[Listed]) -> Suites:
    """Return the tests that run or are skipped, by binary."""
    suites: dict[str, dict[str, None]] = {}
    for one in listed:
        names = [*(job.test_name for job in one.jobs), *one.ignored]
        suites.setdefault(one.binary.target.id, {}).update(dict.fromkeys(names))
    return {binary_id: list(names) for binary_id, names in suites.items()}


def forget_tests(plan: Plan, listed: Sequence[Listed]) -> None:
    """Take out of a plan the tests that are gone by what their binaries list."""
    for binary_id, names in list(plan.run.items()):
        found = [one for one in listed if one.binary.target.id == binary_id]
        if found:
            there = {name for one in found for name in one.all_names}
            folder = found[-1].binary.folder
            missing_tests.forget(
                plan, names, missing_tests.Found(binary_id, there, len(there), folder)
            )
