"""Which runs count as one: shards of a group, and a run with what ran again of it."""

from __future__ import annotations

import dataclasses
from collections.abc import Iterable, Mapping, Sequence

from rezovamy_runs.history.outcomes import Outcome, joined, worse
from rezovamy_runs.history.rows import RunRow
from rezovamy_runs.model import Status, TestName
from rezovamy_runs.store import as_one
from rezovamy_runs.store.as_one import Origin
from rezovamy_runs.store.notes import Part

COMPLETED = (Status.COMPLETED, Status.STRESS_COMPLETED)


@dataclasses.dataclass(frozen=True)
class JoinedRun:
    """Runs that count as one: in the order of their starts, what ran again at the end."""

    rows: tuple[RunRow, ...]

    @property
    def first(self) -> RunRow:
        """Return the run that started first."""
        return self.rows[0]

    @property
    def id(self) -> str:
        """Return the id of the first run."""
        return self.first.id

    @property
    def started(self) -> float:
        """Return when the first run started."""
        return self.first.started

    @property
    def branch(self) -> str | None:
        """Return the branch, None if it isn't known."""
        return self.first.branch

    @property
    def commit(self) -> str | None:
        """Return the commit whose sources ran, None if it isn't known or files were changed."""
        commits = {None if row.dirty else row.commit_id for row in self.rows}
        return commits.pop() if len(commits) == 1 else None

    @property
    def is_whole(self) -> bool:
        """Tell whether it went to its end, and has all tests and all shards."""
        own = [row for row in self.rows if row.part != Part.AGAIN]
        shards = {row.shard for row in own}
        total = max((int(shard.partition("/")[2]) for shard in shards if shard), default=1)
        return bool(own) and len(shards) == total and all(map(is_complete, own))


def is_complete(row: RunRow) -> bool:
    """Tell whether a run has all tests of its shard, and went to its end."""
    return row.part == Part.WHOLE and row.status in COMPLETED


@dataclasses.dataclass(frozen=True, slots=True)
class Told:
    """What a run says of a test."""

    run: int
    test: TestName
    outcome: Outcome


def joined_runs(rows: Iterable[RunRow]) -> list[JoinedRun]:
    """Return runs as they count, in the order in which they started."""
    ordered = sorted(rows, key=lambda row: (row.started, row.id))
    by_id = {row.id: row for row in ordered}
    origin_of = {row.id: origin(row) for row in ordered}.get
    found: dict[tuple[str, str], list[RunRow]] = {}
    for row in ordered:
        head = by_id[as_one.head_of(row.id, origin_of)]
        name = ("run", head.id) if head.group_name is None else ("group", head.group_name)
        found.setdefault(name, []).append(row)
    joined_now = [
        JoinedRun(tuple(sorted(members, key=lambda row: row.part == Part.AGAIN)))
        for members in found.values()
    ]
    return sorted(joined_now, key=lambda run: (run.started, run.id))


def origin(row: RunRow) -> Origin:
    """Return where a run comes from."""
    return Origin(row.parent, row.commit_id, bool(row.dirty), row.part == Part.AGAIN)


def latest(
    runs: Sequence[JoinedRun], most: int, branch: str | None = None, only_whole: bool = False
) -> list[JoinedRun]:
    """Return the latest runs, of a branch or of all, in the order in which they started."""
    found = [
        run for run in runs if branch in (None, run.branch) and (run.is_whole or not only_whole)
    ]
    return found[max(0, len(found) - most) :]


def outcomes_by_run(
    runs: Sequence[JoinedRun], told: Iterable[Told]
) -> list[dict[TestName, Outcome]]:
    """Return the outcomes of the tests of each run."""
    by_run: dict[int, dict[TestName, Outcome]] = {}
    for one in told:
        by_run.setdefault(one.run, {})[one.test] = one.outcome
    return [merged(run, by_run) for run in runs]


def merged(
    run: JoinedRun, by_run: Mapping[int, dict[TestName, Outcome]]
) -> dict[TestName, Outcome]:
    """Return the outcomes of the tests of runs that count as one."""
    if len(run.rows) == 1:
        return by_run.get(run.first.run, {})
    parts = as_one.parts_of({row.id: origin(row) for row in run.rows})
    results = {row.id: by_run.get(row.run, {}) for row in run.rows}
    return as_one.merged(parts, results, joined, worse)
