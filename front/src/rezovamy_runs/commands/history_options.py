"""What the commands that ask the history have in common: which runs, and in which form."""

from __future__ import annotations

import argparse
import dataclasses
from collections.abc import Callable, Sequence
from typing import TypeVar

from rezovamy_runs import formatting
from rezovamy_runs.command_line import print_lines, print_out, say, whole
from rezovamy_runs.faults.fault import Fault
from rezovamy_runs.history import opening, queries
from rezovamy_runs.history.database import Database
from rezovamy_runs.history.joining import JoinedRun, joined_runs
from rezovamy_runs.json_values import JsonObject
from rezovamy_runs.report import tables
from rezovamy_runs.store.run_folder import Store

Answer = TypeVar("Answer")
# As many letters of a commit as git shows.
SHORT_COMMIT = 8


def add_form(parser: argparse.ArgumentParser, page: str | None = None) -> None:
    """Take the form of what is printed; also a page, if `page` says what that is."""
    form = parser.add_mutually_exclusive_group()
    form.add_argument("--json", action="store_true", help="print JSON for scripts")
    form.add_argument(
        "--markdown", action="store_true", help="print Markdown, as for the summary of a CI job"
    )
    if page:
        form.add_argument("--page", nargs="?", const="", metavar="PATH", help=page)


def add_window(
    parser: argparse.ArgumentParser, most: int | None, least: int = 1, told: str = ""
) -> None:
    """Take which runs are looked at; `told` is the default in words, if that isn't a number."""
    parser.add_argument(
        "--runs",
        type=whole(least, 10**6),
        default=most,
        metavar="N",
        help=f"look at the latest N runs ({told or most})",
    )
    parser.add_argument("--branch", metavar="NAME", help="look only at runs of this branch")


def ask(runs: Store, question: Callable[[Database, list[JoinedRun]], Answer]) -> Answer:
    """Bring the history up to date, and ask it with its runs as they count."""
    return opening.ask(
        runs,
        lambda database: question(database, joined_runs(queries.run_rows(database))),
        lambda line: say(f"rezovamy-runs: {line}"),
    )


@dataclasses.dataclass(frozen=True)
class Table:
    """A part of an answer: a title, and rows under heads; the columns in `right` are numbers."""

    title: str
    heads: Sequence[str] = ()
    rows: Sequence[Sequence[object]] = ()
    right: Sequence[str] = ()

    def lines(self) -> list[str]:
        """Return it for a terminal."""
        shown = tables.table(self.heads, self.rows, self.right) if self.rows else []
        return [*([self.title] if self.title else []), *(f"  {line}" for line in shown)]

    def markdown(self) -> list[str]:
        """Return it as Markdown."""
        title = [f"**{tables.markdown_text(self.title)}**", ""] if self.title else []
        shown = tables.markdown(self.heads, self.rows, self.right) if self.rows else []
        return [*title, *shown, *([""] if shown else [])]


def print_answer(
    words: argparse.Namespace, value: Callable[[], object], parts: Sequence[Table | str]
) -> None:
    """Print an answer in the form that is asked for: a value for scripts, or lines and tables."""
    if words.json:
        print_out(tables.as_json(value()))
    elif words.markdown:
        texts = (
            [tables.markdown_text(part), ""] if isinstance(part, str) else part.markdown()
            for part in parts
        )
        print_lines([line for text in texts for line in text][:-1])
    else:
        shown = ([part] if isinstance(part, str) else part.lines() for part in parts)
        print_lines([line for text in shown for line in text])


def run_value(run: JoinedRun) -> JsonObject:
    """Return what a run is known by, for scripts."""
    return {
        "run": run.id,
        "started": run.started,
        "commit": run.first.commit_id,
        "changed": bool(run.first.dirty),
        "branch": run.branch,
    }


def run_text(run: JoinedRun) -> str:
    """Return what a run is known by, for people."""
    commit = run.first.commit_id
    changed = " with changes" if run.first.dirty else ""
    at = f", at commit {commit[:SHORT_COMMIT]}{changed}" if commit else ""
    branch = f" of {run.branch}" if run.branch else ""
    return f"run {run.id} of {formatting.moment(run.started)}{at}{branch}"


def some(runs: list[JoinedRun], runs_of: Store, branch: str | None) -> list[JoinedRun]:
    """Return the runs that were chosen; a fault if there is none."""
    if not runs:
        of_branch = f" of the branch {branch}" if branch else ""
        raise Fault(
            f"no run{of_branch} is in {runs_of.folder}: record one with `rezovamy-runs test`"
        )
    return runs
