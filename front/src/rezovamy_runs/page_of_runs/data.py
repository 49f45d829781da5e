"""What the page of many runs knows, as the JSON value that its script reads.

Runs are the columns of its grid, the newest last; those of one commit stand together. Tests are its
rows, the least trusted first. Of each test the page has a character for each run, as `history`
prints it, and a time for each run in which it ended.
"""

from __future__ import annotations

import dataclasses
from collections.abc import Callable, Iterable, Iterator, Mapping, Sequence
from typing import NotRequired, TypedDict

from rezovamy_runs import formatting
from rezovamy_runs.history import flakiness, joining
from rezovamy_runs.history.flakiness import Record
from rezovamy_runs.history.joining import JoinedRun, Told
from rezovamy_runs.history.outcomes import Outcome
from rezovamy_runs.history.rows import RunRow
from rezovamy_runs.history.timelines import ABSENT, MARKS
from rezovamy_runs.model import TestName, Verdict
from rezovamy_runs.store.notes import Part

ENDED = (Verdict.PASS, Verdict.FLAKY, Verdict.FAIL)
SHORT_COMMIT = 8
# How much of a message a page has, and of all of them together, in characters.
MOST_MESSAGE, MOST_MESSAGES = 200, 500_000
# What a test without a record is: it never ran to its end.
NEVER_ENDED = "never-ended"
# Which of the runs that count as one has a test: a digit for each test.
DIGITS = "0123456789abcdefghijklmnopqrstuvwxyz"


class PageOfRun(TypedDict):
    """A recorded run: its id, which part it is, and its page if that is beside this one."""

    id: str
    part: NotRequired[str]
    page: NotRequired[str]


class Column(TypedDict):
    """A run, or several that count as one; `code` is equal for runs of the same sources.

    `started` is in seconds since 1970. `first` has a digit for each test of the page, where there
    are several runs: which of them has the test first.
    """

    started: float
    when: str
    seconds: float
    code: int
    commit: str | None
    branch: str | None
    changed: NotRequired[bool]
    partial: NotRequired[bool]
    runs: list[PageOfRun]
    first: NotRequired[str]


class Line(TypedDict):
    """A test: a mark for each run, times in milliseconds where it ended, and why it failed.

    `said` has the places of messages in the runs in which it failed, also at first; -1 is none.
    """

    binary: int
    name: str
    kind: str
    marks: str
    times: list[float]
    said: NotRequired[list[int]]


class HistoryData(TypedDict):
    """All that a page of many runs knows."""

    project: str
    binaries: list[str]
    runs: list[Column]
    tests: list[Line]
    messages: list[str]


@dataclasses.dataclass
class Row:
    """What is gathered of a test; times and messages are in the order in which runs are added."""

    marks: bytearray
    times: list[float] = dataclasses.field(default_factory=list)
    said: list[int] = dataclasses.field(default_factory=list)


class Messages:
    """Why tests failed, each different message once, as long as there is room."""

    def __init__(self, room: int = MOST_MESSAGES) -> None:
        self.room = room
        self.places: dict[str, int] = {}

    def place(self, message: str | None) -> int:
        """Return the place of a message, -1 for none or if there is no more room."""
        text = (message or "")[:MOST_MESSAGE]
        if text in self.places:
            return self.places[text]
        if not text or len(text) > self.room:
            return -1
        self.room -= len(text)
        self.places[text] = len(self.places)
        return self.places[text]


def by_commit(runs: Sequence[JoinedRun]) -> list[JoinedRun]:
    """Return runs as columns: the newest commit last, and the runs of a commit side by side."""
    coded = list(zip(runs, flakiness.codes(runs), strict=True))
    begins: dict[int, float] = {}
    for run, code in coded:
        begins[code] = min(run.started, begins.get(code, run.started))
    coded.sort(key=lambda one: (begins[one[1]], one[1], one[0].started, one[0].id))
    return [run for run, _ in coded]


def told_part(row: RunRow) -> str:
    """Return what tells a run from others that count as one with it."""
    if row.part == Part.AGAIN:
        return "run again"
    return f"shard {row.shard}" if row.shard else ""


def page_of_run(row: RunRow, pages: Mapping[str, str]) -> PageOfRun:
    """Return a recorded run; `pages` has the addresses of pages by the ids of runs."""
    made: PageOfRun = {"id": row.id}
    if part := told_part(row):
        made["part"] = part
    if row.id in pages:
        made["page"] = pages[row.id]
    return made


def column(run: JoinedRun, code: int, pages: Mapping[str, str]) -> Column:
    """Return the column of a run."""
    row = run.first
    made: Column = {
        "started": round(run.started),
        "when": formatting.moment(run.started),
        "seconds": round(sum(one.elapsed for one in run.rows), 3),
        "code": code,
        "commit": row.commit_id[:SHORT_COMMIT] if row.commit_id else None,
        "branch": run.branch,
        "runs": [page_of_run(one, pages) for one in run.rows],
    }
    if row.dirty:
        made["changed"] = True
    if not run.is_whole:
        made["partial"] = True
    return made


def milliseconds(seconds: float) -> float:
    """Return a length of time in milliseconds, of which three digits count."""
    value = float(f"{max(seconds, 0.0) * 1000:.3g}")
    return int(value) if value.is_integer() else value


class Grid:
    """The rows of the tests, to which runs are added, from the newest to the oldest.

    So the newest messages have the first go at the room.
    """

    def __init__(self, count: int) -> None:
        self.count = count
        self.rows: dict[TestName, Row] = {}
        self.messages = Messages()
        # For runs that count as one by their place: the first of them that has a test.
        self.firsts: dict[int, dict[TestName, int]] = {}

    def add(self, place: int, run: JoinedRun, told: Iterable[Told]) -> None:
        """Add what a run says of its tests."""
        kept = list(told)
        (found,) = joining.outcomes_by_run([run], kept)
        for test, outcome in found.items():
            self.add_outcome(place, self.row_of(test), outcome)
        if len(run.rows) > 1:
            self.firsts[place] = first_runs(run, kept)

    def row_of(self, test: TestName) -> Row:
        """Return the row of a test; one that is new to the grid is in no run so far."""
        if test not in self.rows:
            self.rows[test] = Row(bytearray(ABSENT.encode() * self.count))
        return self.rows[test]

    def add_outcome(self, place: int, row: Row, outcome: Outcome) -> None:
        """Add how a test ended in a run."""
        row.marks[place] = ord(MARKS[outcome.verdict])
        if outcome.verdict in ENDED:
            row.times.append(milliseconds(outcome.seconds))
        if outcome.verdict in (Verdict.FAIL, Verdict.FLAKY):
            row.said.append(self.messages.place(outcome.message))

    def ordered(self, records: Iterable[Record]) -> Iterator[tuple[TestName, str]]:
        """Yield the tests with their kinds, the least trusted first."""
        ended = {record.test: record.kind for record in records}
        for test, kind in ended.items():
            if test in self.rows:
                yield test, kind.word
        for test in sorted(self.rows.keys() - ended.keys()):
            yield test, NEVER_ENDED


def first_runs(run: JoinedRun, told: Iterable[Told]) -> dict[TestName, int]:
    """Return for each test which of the runs that count as one has it first."""
    places = {row.run: place for place, row in enumerate(run.rows)}
    found: dict[TestName, int] = {}
    for one in told:
        place = places[one.run]
        found[one.test] = min(place, found.get(one.test, place))
    return found


def page_data(
    project: str,
    runs: Sequence[JoinedRun],
    told: Callable[[JoinedRun], Iterable[Told]],
    records: Iterable[Record],
    pages: Mapping[str, str],
) -> HistoryData:
    """Return all that a page knows of runs in the order of its columns.

    `told` asks what a run says of its tests, `records` are of the same runs, and `pages` has the
    addresses of the pages beside this one.
    """
    grid = Grid(len(runs))
    for place, run in reversed(list(enumerate(runs))):
        grid.add(place, run, told(run))
    tests = list(grid.ordered(records))
    binaries: dict[str, int] = {}
    lines = [line(grid.rows[test], test, kind, binaries) for test, kind in tests]
    columns = [column(*one, pages) for one in zip(runs, flakiness.codes(runs), strict=True)]
    for place, first in grid.firsts.items():
        columns[place]["first"] = digits(first.get(test, 0) for test, _ in tests)
    return {
        "project": project,
        "binaries": list(binaries),
        "runs": columns,
        "tests": lines,
        "messages": list(grid.messages.places),
    }


def line(row: Row, test: TestName, kind: str, binaries: dict[str, int]) -> Line:
    """Return the line of a test; its binary has a place among those of the page."""
    made: Line = {
        "binary": binaries.setdefault(test.binary, len(binaries)),
        "name": test.test,
        "kind": kind,
        "marks": row.marks.decode(),
        "times": row.times[::-1],
    }
    if row.said:
        made["said"] = row.said[::-1]
    return made


def digits(places: Iterable[int]) -> str:
    """Return a digit for each place; those without a digit are the last one."""
    return "".join(DIGITS[min(place, len(DIGITS) - 1)] for place in places)
