"""Runs `rt ci` from nothing and measures what each crate costs there, in processor time, wall clock
and memory.

    python3 -m workshop.gate_cost                   prints the table
    python3 -m workshop.gate_cost --processors 2    the same on so many of the machine's processors
    python3 -m workshop.gate_cost --write           writes it into docs/PROVING.md
    python3 -m workshop.gate_cost --watch 30        measures each `rt ci` on the machine
    python3 -m workshop.gate_cost --first-run 4     measures the first lines of README.md

The table is written between the two comments of docs/PROVING.md, and only if the gate passes.
`--watch` runs nothing, and ends once no check was seen for so many minutes. `--first-run` runs the
lines that README.md begins with in place of `rt ci`, so many crates at a time, or with 0 `rt run`
alone.

A crate has a proof; its tests, which are two checks of a crate of tests; a seed, which is a second
proof where two edits or more begin with it, and the check at the end that it still holds; and the
edits themselves. The checker's processes are looked at every two seconds, so what takes less isn't
seen in a check. It is counted in the whole, which the system knows of a gate that has ended. Memory
is the most that one check had at a time, with all that it started: where it has several jobs, what
they share counts for each. Nothing else should run on the machine meanwhile.
"""

from __future__ import annotations

import argparse
import contextlib
import dataclasses
import math
import os
import resource
import shlex
import subprocess
import sys
import tempfile
import time
from collections import defaultdict
from collections.abc import Callable, Iterable, Iterator, Mapping, Sequence
from pathlib import Path
from typing import TypeAlias

from rezovamy_runs.command_line import command_line, whole
from workshop import TOP

PAGE = TOP / "docs/PROVING.md"
BEGIN, END = "<!-- gate_cost begins -->\n", "<!-- gate_cost ends -->\n"
PROGRAM = "rezovamy"
KINDS = ("proof", "tests", "seed", "edits")
# `rt run` begins with it where no library is built: it reads the sources of all crates, and proves
# nothing.
QUICK_PASS = "quick pass"
TICKS = os.sysconf("SC_CLK_TCK")
PAGE_SIZE = os.sysconf("SC_PAGE_SIZE")
PAUSE = 2


# A check by its crate and its kind, the costs of checks, what each crate uses, and a chain of
# crates.
Check: TypeAlias = tuple[str, str]
Costs: TypeAlias = defaultdict[Check, "Cost"]
Uses: TypeAlias = dict[str, list[str]]
Chain: TypeAlias = tuple[float, tuple[str, ...]]


# ---- checks


@dataclasses.dataclass
class Process:
    """A process as /proc shows it, with the processor time of those of its children that have
    ended, and its start since boot.
    """

    parent: int
    seconds: float
    memory: int
    started: float


@dataclasses.dataclass
class Cost:
    """What checks took: seconds of processor time, the most bytes of one of them, when the first
    began and the last was seen, and the most bytes of one process.
    """

    seconds: float = 0
    memory: int = 0
    begun: float = math.inf
    ended: float = -math.inf
    process: int = 0

    @property
    def clock(self) -> float:
        """Seconds of wall clock."""
        return max(0, self.ended - self.begun)

    def with_other(self, other: Cost) -> Cost:
        """The cost of both."""
        return Cost(
            self.seconds + other.seconds,
            max(self.memory, other.memory),
            min(self.begun, other.begun),
            max(self.ended, other.ended),
            max(self.process, other.process),
        )

    def see(self, parts: Sequence[Process], now: float) -> None:
        """Takes what the processes of one check were seen to have used so far."""
        self.seconds = max(self.seconds, sum(part.seconds for part in parts))
        self.memory = max(self.memory, sum(part.memory for part in parts))
        self.process = max(self.process, *(part.memory for part in parts))
        self.ended = now


def processes() -> dict[int, Process]:
    """All processes by their numbers."""
    found = {}
    for name in filter(str.isdigit, os.listdir("/proc")):
        with contextlib.suppress(OSError):
            fields = (
                Path("/proc", name, "stat").read_text(errors="replace").rpartition(")")[2].split()
            )
            seconds = sum(map(int, fields[11:15])) / TICKS
            found[int(name)] = Process(
                int(fields[1]), seconds, int(fields[21]) * PAGE_SIZE, int(fields[19]) / TICKS
            )
    return found


def words_of(number: int) -> list[str]:
    """The words of a process, none where it has ended."""
    try:
        return (
            Path("/proc", str(number), "cmdline").read_bytes().decode(errors="replace").split("\0")
        )
    except OSError:
        return []


def folder_of(number: int) -> str:
    try:
        return os.readlink(f"/proc/{number}/cwd")
    except OSError:
        return ""


def word_after(words: Sequence[str], flag: str) -> str:
    place = words.index(flag) + 1 if flag in words else len(words)
    return words[place] if place < len(words) else ""


def check_of(words: Sequence[str], folder: str) -> Check | None:
    """The crate and the kind of a check, by its words and the folder that it runs in.

    None of any other process.
    """
    crate = word_after(words, "--crate-name")
    if not crate or os.path.basename(words[0]) != "rattle":
        return None
    # Seeds and edits run in folders of one kind. What an edit begins with is a copy of the seed,
    # under the edit's number.
    kept = Path(word_after(words, "--incremental"))
    if kept.name == "seed" and kept.parent.name.startswith("rt-edits-"):
        return crate, "seed"
    if Path(folder).name.startswith("rt-edit-"):
        return crate, "edits"
    # It asks for no function.
    if ("--only", "") in zip(words, words[1:]):
        return crate, QUICK_PASS
    return crate, "tests" if "--test" in words else "proof"


def below(found: Mapping[int, Process], number: int) -> list[int]:
    """A process and all that it started."""
    children = [child for child, process in found.items() if process.parent == number]
    return [number] + [each for child in children for each in below(found, child)]


class Sampler:
    """What the checks below some processes took so far."""

    def __init__(self) -> None:
        self.seen: dict[tuple[Check, int, float], Cost] = {}

    def look(self, found: Mapping[int, Process], checks: Mapping[int, Check], now: float) -> None:
        """Takes what each check that runs has used. One that another has started is part of it."""
        for number, check in checks.items():
            if found[number].parent not in checks:
                parts = [found[part] for part in below(found, number)]
                started = found[number].started
                cost = self.seen.setdefault((check, number, started), Cost(begun=started))
                cost.see(parts, now)

    def look_below(self, roots_in: Callable[[Mapping[int, Process]], Iterable[int]]) -> bool:
        """Looks at the machine, and returns whether a check runs below one of the processes that
        are chosen.
        """
        found = processes()
        numbers = {each for root in roots_in(found) for each in below(found, root)} & found.keys()
        seen = {number: check_of(words_of(number), folder_of(number)) for number in numbers}
        checks = {number: check for number, check in seen.items() if check}
        self.look(found, checks, time.clock_gettime(time.CLOCK_BOOTTIME))
        return bool(checks)

    def costs(self) -> Costs:
        """The costs by crate and kind."""
        found: Costs = defaultdict(Cost)
        for (check, _, _), cost in self.seen.items():
            found[check] = found[check].with_other(cost)
        return found


# ---- gates


@dataclasses.dataclass
class Measure:
    """What one gate took, or several that were watched: these have no status, and of them only the
    checks are known.
    """

    costs: Costs
    minutes: float
    processors: int
    status: int = 0
    whole: float | None = None


def children_seconds() -> float:
    """The processor time of all that this process has started and that has ended."""
    used = resource.getrusage(resource.RUSAGE_CHILDREN)
    return used.ru_utime + used.ru_stime


def gate_words() -> list[str]:
    """The words that run a gate from nothing: a kit that keeps what passed has a flag for it, and
    others never keep anything.
    """
    told = subprocess.run(
        ["rt", "help"],
        stdin=subprocess.DEVNULL,
        stdout=subprocess.PIPE,
        stderr=subprocess.STDOUT,
        text=True,
    )
    return ["rt", "ci", *["--anew"] * ("--anew" in told.stdout)]


def run_gate(processors: int) -> Measure:
    """Runs the gate on so many processors, by which `rt` chooses how much it does at a time."""
    usable = sorted(os.sched_getaffinity(0))[:processors]
    sampler, started, before = Sampler(), time.monotonic(), children_seconds()
    gate = subprocess.Popen(
        ["taskset", "--cpu-list", ",".join(map(str, usable)), *gate_words()], cwd=TOP
    )
    while gate.poll() is None:
        sampler.look_below(lambda _: [gate.pid])
        time.sleep(PAUSE)
    minutes = (time.monotonic() - started) / 60
    return Measure(
        sampler.costs(), minutes, len(usable), gate.returncode, children_seconds() - before
    )


def run_words(at_a_time: int, bundle: str) -> list[str]:
    """The words of the README that prove the crates, so many at a time, and run the program.

    With 0 `rt run` alone proves one by one.
    """
    run = f"rt run -- record {shlex.quote(bundle)}"
    return ["sh", "-c", f"rt all check --jobs {at_a_time} && {run}" if at_a_time else run]


def first_run(at_a_time: int) -> Measure:
    """Runs the program for the first time in a fresh clone, whose crates are proved so many at a
    time; with 0 by `rt run` alone.
    """
    with tempfile.TemporaryDirectory(prefix="first-run-") as room:
        subprocess.run(["git", "clone", "--quiet", str(TOP), f"{room}/clone"], check=True)
        folder = Path(room, "clone/crates", PROGRAM)
        sampler, started, before = Sampler(), time.monotonic(), children_seconds()
        with open(folder / "data/example.session", "rb") as session:
            run = subprocess.Popen(
                run_words(at_a_time, f"{room}/bundle"),
                cwd=folder,
                stdin=session,
                stdout=subprocess.DEVNULL,
            )
            while run.poll() is None:
                sampler.look_below(lambda _: [run.pid])
                time.sleep(PAUSE)
        minutes = (time.monotonic() - started) / 60
        return Measure(
            sampler.costs(),
            minutes,
            len(os.sched_getaffinity(0)),
            run.returncode,
            children_seconds() - before,
        )


def first_lines(measure: Measure) -> Iterator[str]:
    """What a first run took, a line for each crate that was proved, in the order in which they
    began.
    """
    for (crate, kind), cost in sorted(measure.costs.items(), key=lambda item: item[1].begun):
        name = f"`{crate}`" if kind == "proof" else f"the {kind}"
        minutes = f"{cost.seconds / 60:.1f} processor minutes, {cost.clock / 60:.1f} of wall clock"
        yield f"{name}: {minutes}, {cost.memory / 1e9:.1f} GB"
    yield (
        f"{(measure.whole or 0) / 60:.0f} processor minutes, {measure.minutes:.0f} of wall clock "
        f"on {measure.processors} processors"
    )


def is_gate(words: Sequence[str]) -> bool:
    return any(
        os.path.basename(word) == "rt" and after == "ci" for word, after in zip(words, words[1:])
    )


def watch(minutes: int) -> Measure:
    """Measures the gates on the machine, until none had a check for so many minutes, or until it is
    interrupted.
    """
    sampler, seen = Sampler(), time.monotonic()
    with contextlib.suppress(KeyboardInterrupt):
        while time.monotonic() - seen < 60 * minutes:
            if sampler.look_below(
                lambda found: [number for number in found if is_gate(words_of(number))]
            ):
                seen = time.monotonic()
            time.sleep(PAUSE)
    costs = sampler.costs()
    seconds = max((cost.ended for cost in costs.values()), default=0) - min(
        (cost.begun for cost in costs.values()), default=0
    )
    return Measure(costs, seconds / 60, len(os.sched_getaffinity(0)))


# ---- the table


def crates(text: str) -> Uses:
    """The crates of a crates.txt and those that they stand on, in its order, which has the lowest
    first.
    """
    parted = [line.split(":") for line in text.splitlines() if line and not line.startswith("#")]
    return {name.split()[0]: used.split() for name, used in parted}


def longest_chain(uses: Uses, length: Callable[[str, str], float]) -> Chain:
    """The length and the crates of the longest chain of proofs, each after those below it, that
    ends with a proof or with tests.
    """
    proofs: dict[str, Chain] = {}
    ends: list[Chain] = []
    for crate, used in uses.items():
        before, names = max(
            (proofs[name] for name in used if name in proofs),
            key=lambda chain: chain[0],
            default=(0, ()),
        )
        names = (*names, crate)
        proofs[crate] = before + length(crate, "proof"), names
        ends.append((before + max(length(crate, "proof"), length(crate, "tests")), names))
    return max(ends, key=lambda end: end[0])


def stands_on(uses: Uses, crate: str) -> set[str]:
    """A crate and all crates below it."""
    return {crate}.union(*(stands_on(uses, name) for name in uses[crate] if name in uses))


def row_costs(costs: Costs, crate: str) -> dict[str, Cost]:
    """The costs of a crate's row by their kinds: its tests are the checks of its crate of tests."""
    found = {kind: costs[crate, kind] for kind in KINDS}
    for kind in ("proof", "tests"):
        found["tests"] = found["tests"].with_other(costs[f"{crate}_tests", kind])
    return found


def cells(costs: Mapping[str, Cost]) -> str:
    """Minutes, and then gigabytes, of each kind."""
    shown = [f"{costs[kind].seconds / 60:.1f}" if costs[kind].seconds else "-" for kind in KINDS]
    return " | ".join(
        shown + [f"{costs[kind].memory / 1e9:.1f}" if costs[kind].memory else "-" for kind in KINDS]
    )


def table(measure: Measure, uses: Uses) -> str:
    """The measure as a page has it."""
    rows = {name: row_costs(measure.costs, name) for name in uses if not name.endswith("_tests")}
    lines = [
        (
            "| Crate | Proof | Its tests | Seed | Its edits | GB of the proof | of tests | of the "
            "seed | of edits |"
        ),
        "|---|---|---|---|---|---|---|---|---|",
        *(f"| `{crate}` | {cells(costs)} |" for crate, costs in rows.items()),
    ]
    together = {kind: Cost() for kind in KINDS}
    for costs in rows.values():
        together = {kind: together[kind].with_other(costs[kind]) for kind in KINDS}
    return "\n".join(
        [*lines, f"| together | {cells(together)} |", "", *sentences(measure, uses, together), ""]
    )


def sentences(measure: Measure, uses: Uses, together: Mapping[str, Cost]) -> Iterator[str]:
    """What is said below the table, a sentence a line."""
    seen = sum(cost.seconds for cost in together.values())
    taken = seen if measure.whole is None else measure.whole
    yield (
        f"{taken / 60:.0f} processor minutes, {measure.minutes:.0f} minutes of wall clock "
        f"on {measure.processors} processors."
    )
    units: list[tuple[Callable[[Cost], float], str]] = [
        (lambda cost: cost.seconds, "processor minutes")
    ]
    if measure.whole is not None:
        # Of several gates a crate's checks lie apart, so the time between them would count too.
        units.append((lambda cost: cost.clock, "minutes of wall clock"))
    for of, unit in units:
        length, names = longest_chain(uses, lambda crate, kind: of(measure.costs[crate, kind]))
        chain = ", ".join(f"`{name}`" for name in names)
        yield f"The longest chain in {unit}, {length / 60:.0f}, is {chain}."
    if PROGRAM in uses:
        first = stands_on(uses, PROGRAM)
        needed = sum(measure.costs[crate, "proof"].seconds for crate in first)
        yield (
            f"The first `rt run` in `{PROGRAM}` proves {len(first)} crates, "
            f"which is {needed / 60:.0f} processor minutes of these."
        )
    most = max(cost.process for cost in together.values())
    yield f"No process had more than {most / 1e9:.1f} GB."
    if measure.whole is not None:
        yield (
            f"{(taken - seen) / 60:.1f} processor minutes were seen in no check: `rt` itself, "
            "linking, runs, and the last moments of each check."
        )


def read_words() -> argparse.Namespace:
    """Return what the words of the command ask for, or refuse those that don't go together."""
    parser = command_line(__doc__)
    most = len(os.sched_getaffinity(0))
    parser.add_argument(
        "--processors",
        type=whole(1, most),
        default=most,
        metavar="N",
        help=f"run the gate on N processors ({most})",
    )
    parser.add_argument("--write", action="store_true", help="write the table into docs/PROVING.md")
    parser.add_argument(
        "--watch",
        type=whole(1, 10**4),
        metavar="MINUTES",
        help="run nothing, and measure the gates that run",
    )
    parser.add_argument(
        "--first-run",
        type=whole(0, 64),
        metavar="CRATES",
        help="measure the first `rt run`, so many crates at a time",
    )
    asked = parser.parse_args()
    if asked.watch and asked.write:
        parser.error(
            "of gates that are watched it isn't known whether they pass, so --write doesn't go "
            "with --watch"
        )
    if asked.first_run is not None and (asked.watch or asked.write or asked.processors != most):
        parser.error("--first-run stands alone")
    return asked


def main() -> None:
    """Measure the gates that are asked for, print what they cost, and write the table."""
    asked = read_words()
    if asked.first_run is not None:
        measure = first_run(asked.first_run)
        print("\n".join(first_lines(measure)))
        sys.exit(measure.status)
    measure = watch(asked.watch) if asked.watch else run_gate(asked.processors)
    found = table(measure, crates((TOP / "crates.txt").read_text()))
    print(found)
    if asked.write and measure.status == 0:
        before, _, rest = PAGE.read_text().partition(BEGIN)
        _, _, after = rest.partition(END)
        PAGE.write_text(before + BEGIN + found + END + after)
    sys.exit(measure.status)


if __name__ == "__main__":
    main()
