"""Makes a history of many runs, and measures what is asked of it.

    python3 -m workshop.make_history FOLDER [--runs 1000] [--tests 2000] [--bundles 50] [--measure]

The runs come into FOLDER/history.sqlite, or into the database that REZOVAMY_HISTORY names, as if
they had been read of bundles. A file of a few bytes stands for each bundle. FOLDER/bundles gets
some runs as bundles that the program made. `--measure` then asks each question by the front end and
prints its time and its memory, and how many of the bundles come into an index in a second.

Of the tests some are flaky, some always fail, and now and then some fail for a few commits, as
tests of a project do. Equal words make equal runs.
"""

from __future__ import annotations

import argparse
import contextlib
import json
import os
import pathlib
import random
import resource
import subprocess
import sys
import time
from collections.abc import Iterator

from rezovamy_runs import recorder
from rezovamy_runs.command_line import command_line, whole
from rezovamy_runs.history import index, opening, schema
from rezovamy_runs.history.database import Database, SqliteDatabase
from rezovamy_runs.history.outcomes import Outcome, Outcomes
from rezovamy_runs.history.rows import Recorded, RunRow, key_of_run
from rezovamy_runs.model import TestName, Verdict
from rezovamy_runs.streams.session_json import HEAD

from workshop import TOP

START = 1_700_000_000
STUB = b"made"
# Runs follow each other every so many seconds.
EVERY = 600
FLAKY, BROKEN, SKIPPED = 20, 3, 20
QUESTIONS = (
    ("list",),
    ("flaky",),
    ("flaky", "--runs", "1000000"),
    ("history", "test_42_"),
    ("history", "--runs", "1000000", "test_42_"),
    ("compare",),
    ("slowest",),
    ("slower",),
)


class Project:
    """The tests of a project, and how they end from run to run."""

    def __init__(self, tests: int) -> None:
        self._random = random.Random(tests)
        self.tests = [
            TestName(f"part_{number % 20}", f"module_{number % 100}::tests::test_{number}_works")
            for number in range(tests)
        ]
        self._seconds = [self._random.lognormvariate(-4, 1.5) for _ in self.tests]
        self._broken_until: dict[int, int] = {}

    def outcomes(self, commit: int) -> dict[TestName, Outcome]:
        """Return how the tests ended in the next run, at the commit of this number."""
        if self._random.random() < 0.05:
            for number in self._random.sample(range(len(self.tests)), 3):
                self._broken_until[number] = commit + self._random.randint(1, 4)
        return {
            test: self._outcome(number, commit, seconds)
            for number, (test, seconds) in enumerate(zip(self.tests, self._seconds))
        }

    def _outcome(self, number: int, commit: int, usual: float) -> Outcome:
        """Return how a test ended."""
        seconds = usual * self._random.uniform(0.8, 1.3)
        is_flaky = number < FLAKY and self._random.random() < 0.03
        is_broken = FLAKY <= number < FLAKY + BROKEN or self._broken_until.get(number, -1) >= commit
        if is_flaky and self._random.random() < 0.5:
            return Outcome(Verdict.FLAKY, seconds, 2, "it came too late")
        if is_flaky or is_broken:
            return Outcome(Verdict.FAIL, seconds, 1, "assertion `left == right` failed")
        if number >= len(self.tests) - SKIPPED:
            return Outcome(Verdict.SKIP, 0.0)
        return Outcome(Verdict.PASS, seconds)


def run_id(number: int) -> str:
    """Return the id of a run."""
    return f"{random.Random(number).getrandbits(32):08x}-0000-4000-8000-{number:012x}"


def run_row(number: int, outcomes: Outcomes) -> RunRow:
    """Return the row of a run: three runs of a commit, every fifth commit of another branch."""
    verdicts = [outcome.verdict for outcome in outcomes.values()]
    failed = verdicts.count(Verdict.FAIL)
    skipped, flaky = verdicts.count(Verdict.SKIP), verdicts.count(Verdict.FLAKY)
    commit = number // 3
    return RunRow(
        run=key_of_run(run_id(number)),
        id=run_id(number),
        stamp=f"{len(STUB)}+0",
        started=float(START + EVERY * number),
        elapsed=60.0,
        status="completed",
        exit_code=101 if failed else 0,
        passed=len(verdicts) - failed - skipped,
        failed=failed,
        flaky=flaky,
        skipped=skipped,
        unseen=0,
        profile="default",
        bytes=len(STUB),
        commit_id=f"{commit:040x}",
        branch="main" if commit % 5 else f"change-{commit % 7}",
        dirty=0,
        part="whole",
        group_name=None,
        shard=None,
        parent=None,
    )


def fill(database: Database, folder: pathlib.Path, runs: int, tests: int) -> None:
    """Put runs into an index, and files that stand for their bundles into a folder."""
    schema.prepare(database)
    project = Project(tests)
    for number in range(runs):
        outcomes = project.outcomes(number // 3)
        index.add(database, Recorded(run_row(number, outcomes), outcomes))
        (folder / f"{run_id(number)}.bundle").write_bytes(STUB)


def opened(folder: pathlib.Path) -> Database:
    """Open the index that is asked."""
    url = os.environ.get(opening.VARIABLE)
    if not url:
        return SqliteDatabase(folder / opening.FILE)
    from rezovamy_runs.history.postgres import PostgresDatabase

    return PostgresDatabase(url)


def session(number: int, outcomes: Outcomes) -> Iterator[str]:
    """Return the lines of the session of a run, of the tests that passed or failed."""
    from tests import made

    at = EVERY * number
    passed = sum(outcome.is_good for outcome in outcomes.values())
    failed = sum(outcome.has_failed for outcome in outcomes.values())
    suites: dict[str, list[str]] = {}
    for test in outcomes:
        suites.setdefault(test.binary, []).append(test.test)
    head = {
        "run-id": run_id(number),
        "status": made.completed(passed, failed, 101 if failed else 0),
        "started-at": made.instant(at),
        "last-written-at": made.instant(at + 60),
        "duration": made.span(60),
        "test-list": {"suites": suites},
    }
    yield json.dumps({**made.HEAD, **HEAD, **head})
    yield json.dumps({**made.run_started(at), "run-id": run_id(number)})
    for test, outcome in outcomes.items():
        if outcome.is_good or outcome.has_failed:
            result = "pass" if outcome.is_good else made.exit_code()
            attempt = made.status(at + 1, outcome.seconds, result, stdout=b"running\n", stderr=b"")
            named = {"test-instance": {"binary-id": test.binary, "test-name": test.test}}
            yield json.dumps({**made.started(at + 1, test.test), **named})
            yield json.dumps({**made.finished(at + 2, test.test, attempt), **named})
    yield json.dumps({**made.run_finished(at + 60, 60), "run-id": run_id(number)})


def record(folder: pathlib.Path, runs: int, tests: int) -> None:
    """Let the program make the bundles of some runs."""
    folder.mkdir(exist_ok=True)
    project = Project(tests)
    for number in range(runs):
        lines = "\n".join(session(number, project.outcomes(number // 3))) + "\n"
        path = folder / f"{run_id(number)}.bundle"
        recorder.run(["record", path], input=lines.encode(), stdout=subprocess.DEVNULL)


def asked(folder: pathlib.Path, *words: str) -> tuple[float, float]:
    """Return the seconds and the megabytes that an answer of the front end takes."""
    before, begin = resource.getrusage(resource.RUSAGE_CHILDREN), time.monotonic()
    # The most memory of one process alone is known of a child that has no sibling.
    code = (
        "import resource, subprocess, sys\n"
        "status = subprocess.call(sys.argv[1:], stdout=subprocess.DEVNULL)\n"
        "print(resource.getrusage(resource.RUSAGE_CHILDREN).ru_maxrss, status)"
    )
    done = subprocess.run(
        [sys.executable, "-c", code, TOP / "front/rezovamy-runs", *words],
        env={**os.environ, "REZOVAMY_RUNS": str(folder)},
        stdout=subprocess.PIPE,
        text=True,
        check=True,
    )
    del before
    kilobytes, status = done.stdout.split()
    if status != "0":
        raise SystemExit(f"{' '.join(words)} ended with {status}")
    return time.monotonic() - begin, int(kilobytes) / 1024


def measure(folder: pathlib.Path, bundles: int) -> None:
    """Print what each question takes, and how fast bundles come into an index."""
    print("| Question | Seconds | MB |\n|---|---:|---:|")
    for words in QUESTIONS:
        if words[0] != "list":
            seconds, megabytes = min(asked(folder, *words) for _ in range(3))
            print(f"| `{' '.join(words)}` | {seconds:.2f} | {megabytes:.0f} |", flush=True)
    if bundles:
        opening.remove(folder / "bundles" / opening.FILE)
        seconds, megabytes = asked(folder / "bundles", "reindex")
        print(f"| `reindex` of {bundles} bundles | {seconds:.2f} | {megabytes:.0f} |")


def main() -> int:
    """Make the history that the words ask for."""
    parser = command_line(__doc__)
    parser.add_argument("folder", type=pathlib.Path)
    parser.add_argument("--runs", type=whole(0, 10**6), default=1000)
    parser.add_argument("--tests", type=whole(FLAKY + BROKEN + SKIPPED, 10**6), default=2000)
    parser.add_argument("--bundles", type=whole(0, 10**6), default=50)
    parser.add_argument("--measure", action="store_true")
    words: argparse.Namespace = parser.parse_args()
    words.folder.mkdir(parents=True, exist_ok=True)
    begin = time.monotonic()
    with contextlib.closing(opened(words.folder)) as database:
        fill(database, words.folder, words.runs, words.tests)
    print(f"{words.runs} runs made in {time.monotonic() - begin:.1f} s", flush=True)
    record(words.folder / "bundles", words.bundles, words.tests)
    if words.measure:
        measure(words.folder, words.bundles)
    return 0


if __name__ == "__main__":
    sys.exit(main())
