"""Lists the recorded runs, the latest first."""

from __future__ import annotations

import argparse
import dataclasses
from collections.abc import Mapping, Sequence

from rezovamy_runs import formatting, instants
from rezovamy_runs.command_line import matching, options_of, print_lines, print_out, say
from rezovamy_runs.model import Counts, Status, Summary
from rezovamy_runs.report import tables
from rezovamy_runs.store import as_one, groups, joined_counts, notes, run_folder
from rezovamy_runs.store.as_one import Parts
from rezovamy_runs.store.joined_counts import Together
from rezovamy_runs.store.live_folder import with_running
from rezovamy_runs.store.notes import Part, RunNotes
from rezovamy_runs.store.run_folder import Store

SUMMARY = "list the recorded runs, the latest first"
TAKES_REST = False
NUMBERS = ("passed", "failed", "flaky", "skipped", "unended", "took", "size")


@dataclasses.dataclass(frozen=True)
class Options:
    """The options of `list`."""

    branch: str | None
    commit: str | None
    since: float | None
    json: bool


@dataclasses.dataclass(frozen=True)
class Listed:
    """A run, or several that count as one, and what is known of it; None without notes."""

    run: Summary
    notes: RunNotes | None
    # Of several runs: how many shards are there, and how many reruns.
    several: str | None = None

    @property
    def part(self) -> Part:
        """Return how much of the tests the run has."""
        if self.notes:
            return self.notes.part
        return Part.AGAIN if self.run.parent else Part.WHOLE

    def is_asked_for(self, options: Options) -> bool:
        """Tell whether the run has the branch and the commit that are asked for, and is so new."""
        known = self.notes or RunNotes()
        return (
            (options.branch is None or known.branch == options.branch)
            and (options.commit is None or (known.commit or "").startswith(options.commit.lower()))
            and (options.since is None or self.run.started >= options.since)
        )


def add_options(parser: argparse.ArgumentParser) -> None:
    """Take which runs are listed, and the form of what is printed."""
    parser.add_argument("--branch", metavar="NAME", help="list only runs of this branch")
    parser.add_argument(
        "--commit",
        type=matching(r"[0-9a-fA-F]+", str),
        metavar="COMMIT",
        help="list only runs of this commit, or of commits that begin so",
    )
    parser.add_argument(
        "--since",
        type=instants.since,
        metavar="TIME",
        help="list only runs since a day, as 2026-12-31, or since some time ago, as 12h or 30d",
    )
    parser.add_argument("--json", action="store_true", help="print JSON for scripts")


def run(words: argparse.Namespace) -> int:
    """Print a line for each run."""
    options = options_of(Options, words)
    runs = run_folder.here()
    ended = runs.summaries(lambda line: say(f"rezovamy-runs: {line}"))
    all_runs, prefixes = with_running(ended, runs.going_on), runs.prefixes()
    known = [Listed(run, runs.notes(runs.folder / f"{run.id}.bundle")) for run in all_runs]
    found = [one for one in known if one.is_asked_for(options)]
    if options.json:
        print_out(tables.as_json([value_of(run, prefixes) for run in found]))
    elif found:
        rows = [row_of(run, prefixes) for run in as_they_count(runs, known, found)]
        print_lines(tables.table(list(rows[0]), [list(row.values()) for row in rows], NUMBERS))
    elif known:
        say(
            f"rezovamy-runs: none of {formatting.count(len(known), 'run')} is so: leave options out"
        )
    else:
        say(f"rezovamy-runs: no run is in {runs.folder}: record one with `rezovamy-runs test`")
    return 0


def as_they_count(runs: Store, known: Sequence[Listed], found: Sequence[Listed]) -> list[Listed]:
    """Return the runs that were found, of all that are known, as they count.

    The runs of a group are one, where the latest of them is. A run has what ran again of it too,
    and each rerun that is in no group is there besides.
    """
    ended = {one.run.id: one for one in known if one.run.status is not Status.RUNNING}
    origins = {name: as_one.origin_of(one.run, one.notes) for name, one in ended.items()}
    heads = {name: as_one.head_of(name, origins.get) for name in ended}
    members: dict[str, list[Listed]] = {}
    for one in found:
        head = ended.get(heads.get(one.run.id, ""), one)
        members.setdefault(group_of(head) or head.run.id, []).append(one)
    several = {name: ones for name, ones in members.items() if len(ones) > 1 or group_of(ones[0])}
    whole = joined(runs, several)
    rows: dict[str, Listed] = {}
    for one in found:
        head = ended.get(heads.get(one.run.id, ""), one)
        name = group_of(head) or one.run.id
        rows.setdefault(name, whole.get(name, one))
    return list(rows.values())


def group_of(listed: Listed) -> str | None:
    """Return the group of a run, None if it is in none."""
    return listed.notes.group if listed.notes else None


def joined(runs: Store, members: Mapping[str, Sequence[Listed]]) -> dict[str, Listed]:
    """Return runs that count as one as one, by the names of these."""
    together = {name: together_of(ones) for name, ones in members.items()}
    counted = {name: of for name, of in together.items() if not is_split(members[name])}
    counts = joined_counts.of_all(runs.folder, counted)
    return {
        name: as_one_row(name, members[name], of.parts, counts.get(name))
        for name, of in together.items()
    }


def together_of(members: Sequence[Listed]) -> Together:
    """Return runs with what they are to each other."""
    found = [one.run for one in members]
    return Together(found, groups.parts_of(found, [one.notes for one in members]))


def is_split(members: Sequence[Listed]) -> bool:
    """Tell whether no test is in two runs: each is a shard of its own, and none ran again."""
    shards = [one.notes.shard for one in members if one.notes and one.notes.shard]
    all_once = len(set(shards)) == len(members) and len({one.total for one in shards}) == 1
    return all_once and not any(one.run.parent for one in members)


def as_one_row(name: str, members: Sequence[Listed], parts: Parts, counts: Counts | None) -> Listed:
    """Return runs that count as one as one; without counts they are sums."""
    shards = {one.notes.shard for one in members if one.notes and one.notes.shard}
    total = max((shard.total for shard in shards), default=0)
    reruns = sum(one.run.parent is not None for one in members if one.run.id != name)
    texts = [
        f"{len(shards)} of {formatting.count(total, 'shard')}" if shards else "",
        formatting.count(reruns, "rerun") if reruns else "",
    ]
    run = groups.one_summary(name, [one.run for one in members], parts, counts)
    head = next((one for one in members if one.run.id == name), members[0])
    return Listed(run, head.notes, ", ".join(filter(None, texts)))


def part_text(listed: Listed, prefixes: Mapping[str, str]) -> str:
    """Return in words how much of the tests a run has; nothing of a whole run."""
    parent, shard = listed.run.parent, listed.notes.shard if listed.notes else None
    if listed.part is Part.AGAIN and parent:
        own = f"again of {prefixes.get(parent, parent)}"
    else:
        own = "" if listed.part is Part.WHOLE else listed.part
    if listed.several is None and shard:
        own = f"shard {shard} {own}".rstrip()
    return ", ".join(filter(None, [own, listed.several]))


def row_of(listed: Listed, prefixes: Mapping[str, str]) -> dict[str, object]:
    """Return what is said of a run for people, by the heads of the columns."""
    run, counts = listed.run, listed.run.counts
    return {
        "run": prefixes.get(run.id, run.id),
        "started": formatting.moment(run.started),
        "profile": formatting.name(run.profile),
        "part": part_text(listed, prefixes),
        "passed": counts.passed,
        "failed": counts.failed,
        "flaky": counts.flaky,
        "skipped": counts.skipped,
        "unended": counts.unseen,
        "status": status_of(run),
        "took": formatting.duration(run.elapsed),
        "size": formatting.size(run.size),
    }


def status_of(run: Summary) -> str:
    """Return in words how a run ended."""
    word = "stopped" if run.status is Status.INCOMPLETE else run.status
    return word if run.exit_code is None else f"{word} {run.exit_code}"


def value_of(listed: Listed, prefixes: Mapping[str, str]) -> dict[str, object]:
    """Return what is said of a run for scripts; instants and lengths are seconds."""
    run, counts = listed.run, listed.run.counts
    return {
        "id": run.id,
        "prefix": prefixes.get(run.id, run.id),
        "started": run.started,
        "profile": run.profile,
        "command": run.cli_args,
        "passed": counts.passed,
        "failed": counts.failed,
        "flaky": counts.flaky,
        "skipped": counts.skipped,
        "unended": counts.unseen,
        "status": run.status,
        "exit-code": run.exit_code,
        "seconds": run.elapsed,
        "bytes": run.size,
        "path": str(run.bundle.absolute()),
        "part": listed.part,
        "notes": notes.json_of(listed.notes) if listed.notes else None,
    }
