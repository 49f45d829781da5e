"""Makes one run of runs that count as one: the runs of a group, and a run with its reruns."""

from __future__ import annotations

import collections
import dataclasses
from collections.abc import Callable, Iterable, Mapping, Sequence

from rezovamy_runs.model import (
    Attempt,
    Counts,
    Run,
    Slice,
    Status,
    Summary,
    Test,
    TestName,
    Verdict,
)
from rezovamy_runs.store import as_one
from rezovamy_runs.store.as_one import Counted, Parts
from rezovamy_runs.store.notes import RunNotes, Shard

# A test, in a stress run of one sub-run.
Key = tuple[TestName, int | None]


def parts_of(runs: Sequence[Summary], known: Sequence[RunNotes | None]) -> Parts:
    """Return which runs ran again something of others, by their notes."""
    pairs = sorted(zip(runs, known, strict=True), key=lambda pair: pair[0].started)
    return as_one.parts_of({run.id: as_one.origin_of(run, notes) for run, notes in pairs})


def one_run(name: str, runs: Sequence[Run], parts: Parts) -> Run:
    """Return runs that count as one as one run with a name.

    A test that several of them ran has the attempts of all, the one that counts at the end.
    """
    of = {run.id: run for run in runs}
    runs = [of[run_id] for run_id in as_one.ordered(parts)]
    tests = tuple(tests_of(runs, parts).values())
    seen = {test.key for test in tests}
    waiting = dict.fromkeys(one for run in runs for one in run.never_started if one not in seen)
    unnamed = sum(run.unnamed for run in runs)
    counts = counts_of(tests)
    counts = dataclasses.replace(counts, unseen=counts.unseen + len(waiting) + unnamed)
    return Run(
        **vars(one_summary(name, runs, parts, counts)),
        extent=extent_of(runs),
        tests=tests,
        scripts=tuple(script for run in runs for script in run.scripts),
        # A pause of a run beside others isn't one of all.
        pauses=() if len(parts.chains) > 1 else tuple(one for run in runs for one in run.pauses),
        cancellations=tuple(one for run in runs for one in run.cancellations),
        never_started=tuple(waiting),
        unnamed=unnamed,
    )


def extent_of(runs: Iterable[Run]) -> Slice:
    """Return the instants of the first and the last event of runs, equal ones if there is none."""
    # A run without an event says nothing.
    known = [run.extent for run in runs if any(run.extent)]
    return min((one for one, _ in known), default=0), max((one for _, one in known), default=0)


def tests_of(runs: Sequence[Run], parts: Parts) -> Mapping[Key, Test]:
    """Return each test of runs that count as one."""
    results = {run.id: {(test.key, test.stress): test for test in run.tests} for run in runs}
    return as_one.merged(parts, results, joining_by(as_one.again), joining_by(as_one.beside))


def joining_by(
    rule: Callable[[Verdict, Verdict], Counted],
) -> Callable[[Test, Test], Test]:
    """Return what makes one test of two by a rule for their verdicts."""

    def join(earlier: Test, later: Test) -> Test:
        """Return one test with the attempts of both."""
        verdict, is_later = rule(earlier.verdict, later.verdict)
        last = later if is_later else earlier
        first = earlier if is_later else later
        attempts = numbered([*first.attempts, *last.attempts])
        return dataclasses.replace(last, verdict=verdict, attempts=attempts)

    return join


def numbered(attempts: Sequence[Attempt]) -> tuple[Attempt, ...]:
    """Return attempts with their numbers in a row."""
    total = len(attempts)
    return tuple(
        dataclasses.replace(attempt, number=number, total=total)
        for number, attempt in enumerate(attempts, 1)
    )


def one_summary(
    name: str, runs: Sequence[Summary], parts: Parts, counts: Counts | None = None
) -> Summary:
    """Return the summaries of runs that count as one as one.

    Its counts are their sums if they aren't known.
    """
    of = {run.id: run for run in runs}
    heads = [of[chain[0]] for chain in parts.chains] or list(runs)
    first = min(heads, key=lambda run: run.started)
    counts = counts or sum_of(run.counts for run in runs)
    deciding = deciding_of(of, parts, counts)
    codes = [run.exit_code for run in deciding if run.exit_code is not None]
    statuses = [run.status for run in deciding if run.status is not Status.COMPLETED]
    reruns = [run for run in runs if run not in heads]
    span = max(run.started + run.elapsed for run in heads) - first.started
    return Summary(
        id=name,
        bundle=first.bundle,
        size=sum(run.size for run in runs),
        profile=first.profile,
        started=first.started,
        # How long nobody ran anything again, doesn't count.
        elapsed=span + sum(run.elapsed for run in reruns),
        status=next(iter(statuses), Status.COMPLETED),
        exit_code=max(codes, default=None),
        counts=counts,
        nextest_version=first.nextest_version,
        cli_args=first.cli_args,
        parent=first.parent,
    )


def deciding_of(of: Mapping[str, Summary], parts: Parts, counts: Counts) -> list[Summary]:
    """Return the runs that say how the whole ended: all, or the last reruns if all passed there."""
    if counts.failed or counts.unseen:
        return list(of.values())
    return [of[chain[-1]] for chain in parts.chains] or list(of.values())


def sum_of(counts: Iterable[Counts]) -> Counts:
    """Return the sums of counts."""
    each = [dataclasses.astuple(one) for one in counts]
    return Counts(*map(sum, zip(*each)))


def counts_of(tests: Iterable[Test]) -> Counts:
    """Return how many tests there are by their verdicts."""
    found = collections.Counter(test.verdict for test in tests)
    return Counts(
        passed=found[Verdict.PASS] + found[Verdict.FLAKY],
        failed=found[Verdict.FAIL],
        flaky=found[Verdict.FLAKY],
        skipped=found[Verdict.SKIP],
        unseen=found[Verdict.UNFINISHED],
    )


def ran_twice(runs: Sequence[Run]) -> list[TestName]:
    """Return the tests that several runs ran, as far as none of these is a rerun."""
    wholes = [run for run in runs if run.parent is None]
    found = collections.Counter(
        key for run in wholes for key in {test.key for test in run.tests if test.attempts}
    )
    return sorted(key for key, number in found.items() if number > 1)


def doubts(name: str, runs: Sequence[Run], known: Iterable[RunNotes | None]) -> list[str]:
    """Return what of a group isn't as it should be, in a line each."""
    twice = [f"several runs of {name} ran {key.binary} {key.test}" for key in ran_twice(runs)]
    return [*missing_lines(name, known), *twice]


def missing_lines(name: str, known: Iterable[RunNotes | None]) -> list[str]:
    """Return a line with the shards that lack in a group, none if it has all."""
    missing = missing_shards(notes.shard for notes in known if notes)
    line = f"of {name} no run is there of shard {', '.join(map(str, missing))}"
    return [line] if missing else []


def missing_shards(shards: Iterable[Shard | None]) -> list[Shard]:
    """Return the shards of a group that no run has."""
    there = {shard for shard in shards if shard}
    totals = sorted({shard.total for shard in there})
    every = (Shard(number, total) for total in totals for number in range(1, total + 1))
    return [shard for shard in every if shard not in there]
