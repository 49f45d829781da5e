"""Says what differs between two recorded runs."""

from __future__ import annotations

import argparse
import dataclasses
import pathlib
import sys
from collections.abc import Callable
from typing import NamedTuple

from rezovamy_runs import formatting, quarantine, terminal
from rezovamy_runs.command_line import options_of, print_lines, print_out, whole
from rezovamy_runs.commands import history_options
from rezovamy_runs.commands.history_options import Table
from rezovamy_runs.faults.fault import Fault
from rezovamy_runs.history import joining, outcomes, queries
from rezovamy_runs.history.database import Database
from rezovamy_runs.history.joining import JoinedRun
from rezovamy_runs.history.outcomes import Comparison, Outcomes, Slower
from rezovamy_runs.history.rows import named, outcomes_of
from rezovamy_runs.json_values import JsonObject
from rezovamy_runs.model import TestName
from rezovamy_runs.quarantine import Quarantine
from rezovamy_runs.report import tables
from rezovamy_runs.report.run_text import name_of
from rezovamy_runs.store import run_folder
from rezovamy_runs.store.notes import Part as PartOfTests
from rezovamy_runs.store.run_folder import Store

SUMMARY = (
    "say what differs between two runs: newly failing, fixed, new and gone tests, and slower ones"
)
TAKES_REST = False
MOST_RUNS = 10
# The status of --fail where a test fails that didn't before.
BAD = 4


class Part(NamedTuple):
    """A part of what differs: its title, its colour, and the tests that are in it."""

    title: str
    colour: terminal.Colour
    tests: Callable[[Comparison], list[TestName]]


NEW = "new"
PARTS = (
    Part("newly failing", "red", lambda found: found.newly_failing),
    Part("fixed", "green", lambda found: found.fixed),
    Part("still failing", "red", lambda found: found.still_failing),
    Part("never ended", "yellow", lambda found: found.never_ended),
    Part(NEW, "cyan", lambda found: found.new),
    Part("gone", "yellow", lambda found: found.gone),
)


@dataclasses.dataclass(frozen=True)
class Options:
    """The options of `compare`."""

    first: str | None
    second: str | None
    runs: int
    branch: str | None
    fail: bool
    json: bool
    markdown: bool


@dataclasses.dataclass(frozen=True)
class Side:
    """One of the two runs, and the outcomes of its tests."""

    run: JoinedRun
    outcomes: Outcomes


@dataclasses.dataclass(frozen=True)
class Compared:
    """Two runs, what differs between them, and which tests are in quarantine."""

    first: Side
    second: Side
    found: Comparison
    quarantine: Quarantine = quarantine.NOTHING

    @property
    def new_failures(self) -> list[TestName]:
        """Return the tests that are new, and fail."""
        return [key for key in self.found.new if self.second.outcomes[key].has_failed]

    @property
    def is_worse(self) -> bool:
        """Tell whether a test fails or never ended that didn't before, and may not fail."""
        failing = [*self.found.newly_failing, *self.new_failures]
        counting = [key for key in failing if key not in self.quarantine]
        return bool(counting or self.found.never_ended)


def add_options(parser: argparse.ArgumentParser) -> None:
    """Take two runs, and from how many others usual times are taken."""
    parser.add_argument(
        "first",
        metavar="A",
        nargs="?",
        help="the earlier run: the beginning of its id, the path of a bundle, or last "
        "(the whole run before B, on its branch)",
    )
    parser.add_argument("second", metavar="B", nargs="?", help="the later run (the last whole run)")
    parser.add_argument(
        "--runs",
        type=whole(0, 10**6),
        default=MOST_RUNS,
        metavar="N",
        help="how many runs before B say how much the times of a test differ usually "
        f"({MOST_RUNS})",
    )
    parser.add_argument("--branch", metavar="NAME", help="take the last whole run of this branch")
    parser.add_argument(
        "--fail",
        action="store_true",
        help=f"end with status {BAD} where a test fails that didn't before",
    )
    history_options.add_form(parser)


def run(words: argparse.Namespace) -> int:
    """Print what differs."""
    options = options_of(Options, words)
    runs = run_folder.here()
    paths = [bundle_of(runs, word) if word else None for word in (options.first, options.second)]
    if all(path is not None and not is_stored(runs, path) for path in paths):
        first, second = (side_of(path) for path in paths if path is not None)
        compared = comparison(first, second, [])
    else:
        compared = history_options.ask(
            runs, lambda database, found: Asked(runs, database, found, options).compared(*paths)
        )
    compared = dataclasses.replace(compared, quarantine=quarantine.of(runs))
    print_compared(compared, options)
    return BAD if options.fail and compared.is_worse else 0


def bundle_of(runs: Store, word: str) -> pathlib.Path:
    """Return the bundle of the run that a word names; of a group's runs, that of the first."""
    chosen = runs.find_all(word)
    if chosen.group is None:
        return chosen.paths[0]
    first = min(
        (run.started, run.id, run.bundle) for run in runs.readable() if run.bundle in chosen.paths
    )
    return first[-1]


def is_stored(runs: Store, path: pathlib.Path) -> bool:
    """Tell whether a bundle is one of the folder."""
    return runs.is_somewhere() and runs.path_of(id_of(path)) == path


def id_of(path: pathlib.Path) -> str:
    """Return the id of the run whose bundle in the folder has this path."""
    return path.name.partition(".")[0]


def side_of(path: pathlib.Path) -> Side:
    """Return the run of a bundle that isn't in the folder."""
    recorded = outcomes_of(path)
    return Side(JoinedRun((recorded.row,)), recorded.outcomes)


def comparison(first: Side, second: Side, others: list[Outcomes]) -> Compared:
    """Return what differs between two runs; the others say what times are usual."""
    return Compared(first, second, outcomes.compare(first.outcomes, second.outcomes, others))


@dataclasses.dataclass(frozen=True)
class Asked:
    """What is asked of the history for a comparison."""

    runs: Store
    database: Database
    found: list[JoinedRun]
    options: Options

    def compared(self, first: pathlib.Path | None, second: pathlib.Path | None) -> Compared:
        """Return what differs between two runs, or the last two whole ones of a branch."""
        later = self._side(second, self._last_whole)
        earlier = self._side(first, lambda: self._whole_before(later.run))
        if first and second and {*earlier.run.rows} & {*later.run.rows}:
            earlier, later = self._alone(first), self._alone(second)
        return comparison(earlier, later, self._others(earlier.run, later.run))

    def _side(self, path: pathlib.Path | None, default: Callable[[], JoinedRun]) -> Side:
        """Return the run of a bundle, or another one if none is named."""
        if path is not None and not is_stored(self.runs, path):
            return side_of(path)
        run = default() if path is None else self._run_of(id_of(path))
        return Side(run, self._outcomes([run])[0])

    def _alone(self, path: pathlib.Path) -> Side:
        """Return a run without what counts with it as one, to hold it against just that."""
        rows = [row for run in self.found for row in run.rows if row.id == id_of(path)]
        run = JoinedRun(tuple(rows))
        return Side(run, self._outcomes([run])[0])

    def _run_of(self, run_id: str) -> JoinedRun:
        """Return the run with which others count as one, or a single one of these others."""
        for run in self.found:
            for row in run.rows:
                if row.id == run_id:
                    return run if row == run.first else JoinedRun((row,))
        raise Fault(f"run {run_id} can't be read: record it again, or name another one")

    def _last_whole(self) -> JoinedRun:
        """Return the last whole run."""
        chosen = joining.latest(self.found, 1, self.options.branch, only_whole=True)
        if not chosen:
            raise Fault(
                f"no whole run is in {self.runs.folder}: record one with `rezovamy-runs test`, "
                "or name two runs"
            )
        return chosen[0]

    def _whole_before(self, later: JoinedRun) -> JoinedRun:
        """Return the whole run of the same branch before a run."""
        before = [run for run in self.found if run.started < later.started and run.is_whole]
        chosen = [run for run in before if run.branch == later.branch]
        if not chosen:
            of_branch = f" of the branch {later.branch}" if later.branch else ""
            raise Fault(
                f"no whole run{of_branch} came before run {later.id}: name the run to start from"
            )
        return chosen[-1]

    def _outcomes(self, runs: list[JoinedRun]) -> list[Outcomes]:
        """Return the outcomes of the tests of runs."""
        names = queries.test_names(self.database)
        told = queries.outcomes_told(self.database, runs, names)
        return [*joining.outcomes_by_run(runs, told)]

    def _others(self, first: JoinedRun, second: JoinedRun) -> list[Outcomes]:
        """Return the outcomes of the latest runs before the second one, without the first."""
        before = [
            run
            for run in self.found
            if run.started < second.started and run.id not in (first.id, second.id)
        ]
        return self._outcomes(joining.latest(before, self.options.runs))


def print_compared(compared: Compared, options: Options) -> None:
    """Print what differs in the form that is asked for."""
    if options.json:
        print_out(tables.as_json(value_of(compared)))
    elif options.markdown:
        print_lines(markdown_of(compared))
    else:
        paint = terminal.Paint(terminal.colours(sys.stdout))
        print_lines(lines_of(compared, paint))


def value_of(compared: Compared) -> JsonObject:
    """Return what differs, for scripts."""
    found = compared.found
    value: JsonObject = {"first": compared.first.run.id, "second": compared.second.run.id}
    for part in PARTS:
        value[part.title.replace(" ", "-")] = [
            named(key) | {"quarantined": key in compared.quarantine} for key in part.tests(found)
        ]
    value["slower"] = [
        named(one.key)
        | {
            "before": one.before,
            "after": one.after,
            "usual": one.usual,
            "spread": one.spread,
        }
        for one in found.slower
    ]
    return value


def head_of(compared: Compared) -> str:
    """Return a line that says which runs are compared."""
    started = [formatting.moment(side.run.started) for side in (compared.first, compared.second)]
    return f"from the run of {started[0]} to that of {started[1]}:"


SAME = "no test ended otherwise, and none became slower"


def lines_of(compared: Compared, paint: terminal.Paint) -> list[str]:
    """Return what differs, for people."""
    found, failing = compared.found, set(compared.new_failures)
    lines = [line for side in (compared.first, compared.second) for line in doubts_of(side.run)]
    for part in PARTS:
        keys = part.tests(found)
        if keys:
            lines.append(paint(part.colour, f"{part.title}: {formatting.count(len(keys), 'test')}"))
            lines += [
                f"  {compared.quarantine.marked(key)}{', which fails' if key in failing else ''}"
                for key in keys
            ]
    if found.slower:
        count = formatting.count(len(found.slower), "test")
        lines += [paint("yellow", f"slower: {count}"), *map(slower_line, found.slower)]
    return [head_of(compared), *(lines or [SAME])]


def markdown_of(compared: Compared) -> list[str]:
    """Return what differs, as Markdown with what went wrong in each test."""
    found, after = compared.found, compared.second.outcomes
    parts = [Table(head_of(compared))]
    for part in PARTS:
        rows = [
            (
                compared.quarantine.marked(key),
                (after[key].message or "") if key in after else "",
            )
            for key in part.tests(found)
        ]
        if rows:
            title = f"{part.title}: {formatting.count(len(rows), 'test')}"
            parts.append(Table(title, ("test", "what went wrong"), rows))
    if found.slower:
        slower = [
            (formatting.duration(one.before), formatting.duration(one.after), name_of(one.key))
            for one in found.slower
        ]
        title = f"slower: {formatting.count(len(slower), 'test')}"
        parts.append(Table(title, ("before", "after", "test"), slower, ("before", "after")))
    doubts = [line for side in (compared.first, compared.second) for line in doubts_of(side.run)]
    said = [*doubts, *([SAME] if len(parts) == 1 and not doubts else [])]
    lines = [line for part in parts for line in part.markdown()]
    return [*lines, *map(tables.markdown_text, said)]


def doubts_of(run: JoinedRun) -> list[str]:
    """Return lines that say why tests of a run may seem gone or new."""
    lines = []
    if any(row.status not in joining.COMPLETED for row in run.rows):
        lines.append("was broken off or isn't known whole, so tests may seem gone or new")
    if run.first.part == PartOfTests.AGAIN:
        lines.append("ran again only what hadn't passed, so other tests may seem gone or new")
    if run.first.part == PartOfTests.FILTERED:
        lines.append("ran only chosen tests, so other tests may seem gone or new")
    return [f"run {run.id} {line}" for line in lines]


def slower_line(one: Slower) -> str:
    """Return a line for a test that became slower."""
    before, after, usual, spread = map(
        formatting.duration, (one.before, one.after, one.usual, one.spread)
    )
    usually = f"usually {usual}, give or take {spread}"
    return f"  {before} -> {after}  {name_of(one.key)} ({usually})"
