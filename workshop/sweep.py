"""Refuses each allocation, read and write of each command in turn, and says what each left.

    python3 -m workshop.sweep [--only WORD] [--from N] [--to N] [--kept FILE] PROGRAM

PROGRAM is `crates/rezovamy/out/rezovamy`, which README.md says how to build.

It runs the built program: `record` on the session that ships with the repository, on one with a cut
output and on one with each kind of event, in each form of the trace; the commands that read a
bundle, those that write another one among them, on the bundles that these gave, in each form;
`sample`, `--help` and `--version`. Each run is that of a traced child whose calls of the C library
are counted, and one of them is refused. Each is held to what a refusal has to leave; the first that
leaves anything else ends the sweep with status 1.

The whole sweep takes long. `--only` takes the runs that have this word in their names, and `--from`
and `--to` the calls of these numbers, counted from 1 for allocations, reads and writes each. Into
the file of `--kept` each call that was refused is written, and those that stand there are not
refused again, so a sweep that was stopped goes on with the same words. It is of one program, and
another one is refused. Linux on x86-64 is needed.
"""

from __future__ import annotations

import dataclasses
import hashlib
import json
import os
import subprocess
import sys
import tempfile
from collections.abc import Iterator, Mapping, Sequence
from pathlib import Path
from typing import NamedTuple, TextIO

from rezovamy_runs.command_line import command_line, demand_program, whole
from workshop import TOP
from workshop.oracle.container import entries
from workshop.tracing import Call, run_refusing

OLD = b"an older file"
MANIFEST = b"manifest.json"
KINDS = ("allocation", "read", "write")
MOST = 10**9

# What stands after a command that draws a trace, and the name of this form.
FORMS: list[tuple[str, tuple[str, ...]]] = [
    ("", ()),
    (" pretty", ("--message-format", "json-pretty")),
    (" by slot", ("--group-by", "slot")),
    (" by slot, pretty", ("--group-by", "slot", "--message-format", "json-pretty")),
]
# The commands that read a bundle and draw no trace, and how what they print begins.
OTHERS: list[tuple[str, tuple[str, ...], bytes]] = [
    ("info", (), b'{"format-version":'),
    ("replay", (), b"header 550e8400-"),
    ("replay", ("--output", "skip"), b"header 550e8400-"),
    ("report", (), b'{"name":"nextest-run",'),
    ("slots", (), b"run="),
    ("rerun", (), b'{"parent-run-id":'),
    ("view", (), b'{"begin":'),
]


class Left(NamedTuple):
    """What a run ended with, left at `bundle`, printed and reported."""

    status: int
    bundle: bytes
    out: bytes
    line: bytes


@dataclasses.dataclass(frozen=True)
class Run:
    """A run: what it left, and how often each call came."""

    left: Left
    calls: Mapping[str, int]


@dataclasses.dataclass(frozen=True)
class Target:
    """Words with their standard input, and the lines where the outside fails.

    These are the lines for standard output, for the file and for standard input.
    """

    name: str
    words: Sequence[str]
    source: bytes
    fault: bytes
    unwritten: bytes = b"BundleFault\n"
    unread: bytes = b"SourceFault\n"


class Sweep:
    """Runs of the program in a folder."""

    def __init__(self, program: str, folder: Path) -> None:
        self.program = program
        self.folder = folder
        os.chdir(folder)

    def run(self, words: Sequence[str], source: bytes, refused: Call | None = None) -> Run:
        """What a run ended with, left at `bundle`, printed and reported, and how often each call
        came.
        """
        paths = {name: self.folder / name for name in ("bundle", "source", "out", "diag")}
        paths["bundle"].write_bytes(OLD)
        paths["source"].write_bytes(source)
        status, calls = run_refusing(
            [self.program, *words], paths["source"], paths["out"], paths["diag"], refused
        )
        left = {path.name for path in self.folder.iterdir()}
        demand(left == set(paths), f"{words[0]}: it leaves the files {sorted(left - set(paths))}")
        demand(paths["source"].read_bytes() == source, f"{words[0]}: it changes what it reads")
        bundle, out, line = (paths[name].read_bytes() for name in ("bundle", "out", "diag"))
        return Run(Left(status, bundle, out, line), calls)

    def whole(self, words: Sequence[str], source: bytes) -> Run:
        """Run the program without refusing anything."""
        run = self.run(words, source)
        demand(
            (run.left.status, run.left.line) == (0, b""),
            f"{words}: the run itself ends with {run.left.status} {run.left.line!r}",
        )
        return run

    def sound(self, words: Sequence[str], source: bytes) -> Left:
        """Return what is left of a run of which nothing is refused."""
        return self.whole(words, source).left


class Kept:
    """The calls that were refused, and whether the run did with less.

    In a file, where one is named.
    """

    def __init__(self, path: str | None, program: str) -> None:
        self.calls: dict[tuple[str, str, int], bool] = {}
        self.file: TextIO | None = None
        if path is None:
            return
        self.file = open(path, "a+", encoding="utf-8")
        self.file.seek(0)
        text = self.file.read()
        first, *lines = text.splitlines() or [""]
        of = hashlib.sha256(Path(program).read_bytes()).hexdigest()
        demand(first in ("", of), f"{path} is of another program")
        if not first:
            self.write(of)
        if not text.endswith("\n") and text:
            # The last line was cut when a sweep was stopped.
            lines = lines[:-1]
            self.write("")
        for name, kind, number, less in (
            line.split("\t") for line in lines if line.count("\t") == 3
        ):
            self.calls[name, kind, int(number)] = less == "less"

    def write(self, line: str) -> None:
        if self.file is not None:
            self.file.write(f"{line}\n")
            self.file.flush()

    def add(self, name: str, kind: str, number: int, less: bool) -> None:
        self.calls[name, kind, number] = less
        self.write(f"{name}\t{kind}\t{number}\t{'less' if less else 'refused'}")

    def counts(self, name: str, kind: str) -> tuple[int, int]:
        """How many calls were refused, and how many of these runs did with less."""
        found = [less for (of, sort, _), less in self.calls.items() if (of, sort) == (name, kind)]
        return len(found), sum(found)


def demand(condition: bool, what: str) -> None:
    if not condition:
        sys.exit(f"FAULT: {what}")


def judge_memory(target: Target, run: Left, whole_run: Left, number: int) -> bool:
    """Holds a run without an allocation to what it must leave, and returns whether it did with
    less.
    """
    # A growth that was refused is tried once more with what is needed at least.
    if run == whole_run:
        return True
    # `sample` may want memory for its line when its bundle is written.
    bundles = (OLD, whole_run.bundle) if target.words[0] == "sample" else (OLD,)
    demand(run.status == 70, f"{target.name}: allocation {number} gives status {run.status}")
    demand(
        run.bundle in bundles and run.out == b"",
        f"{target.name}: allocation {number} changes a sink",
    )
    demand(
        run.line in (b"AllocError\n", b"OutOfMemory\n"),
        f"{target.name}: allocation {number} is reported as {run.line!r}",
    )
    return False


def judge_read(target: Target, run: Left, whole_run: Left, number: int) -> bool:
    demand(
        (run.status, run.line) == (3, target.unread),
        f"{target.name}: read {number} gives {run.status} {run.line!r}",
    )
    demand(run.bundle == OLD and run.out == b"", f"{target.name}: read {number} changes a sink")
    return False


def judge_write(target: Target, run: Left, whole_run: Left, number: int) -> bool:
    """Holds a run without a write to its prefixes.

    Where the file at `bundle` is whole, standard output failed.
    """
    said = f"{target.name}: write {number}"
    if run.bundle == whole_run.bundle:
        demand(
            (run.status, run.line) == (11, target.fault), f"{said} gives {run.status} {run.line!r}"
        )
        demand(
            is_proper_prefix(run.out, whole_run.out), f"{said} leaves no prefix of what is printed"
        )
    else:
        demand(
            (run.status, run.line) == (10, target.unwritten),
            f"{said} gives {run.status} {run.line!r}",
        )
        demand(
            is_proper_prefix(run.bundle, whole_run.bundle) and run.out == b"",
            f"{said} leaves no prefix of the bundle",
        )
    return False


JUDGES = {"allocation": judge_memory, "read": judge_read, "write": judge_write}


def is_proper_prefix(part: bytes, whole_text: bytes) -> bool:
    return whole_text.startswith(part) and part != whole_text


def sweep(tool: Sweep, kept: Kept, target: Target, first: int, last: int) -> None:
    """Refuses the calls of these numbers that weren't refused yet, and prints how many were refused
    so far.
    """
    whole_run = tool.whole(target.words, target.source)
    calls = whole_run.calls
    numbered = [
        (kind, number)
        for kind in KINDS
        for number in range(first, min(last, calls[kind]) + 1)
        if (target.name, kind, number) not in kept.calls
    ]
    for kind, number in numbered:
        run = tool.run(target.words, target.source, (kind, number))
        less = JUDGES[kind](target, run.left, whole_run.left, number)
        kept.add(target.name, kind, number, less)
    (memory, smaller), (reads, _), (writes, _) = (kept.counts(target.name, kind) for kind in KINDS)
    print(
        f"{target.name}: {memory} of {calls['allocation']} allocations ({smaller} done with less), "
        f"{reads} of {calls['read']} reads and {writes} of {calls['write']} writes "
        "refused in turn",
        flush=True,
    )


def targets_of(tool: Sweep, name: str, session: bytes, options: Sequence[str]) -> Iterator[Target]:
    """`record` on a session in each form, and the commands that read its bundle."""
    plain = tool.sound(["record", "bundle", *options], session)
    demand(json.loads(plain.out)["traceEvents"] != [], f"{name}: the run itself draws nothing")
    demand(plain.bundle != OLD, f"{name}: the run itself writes no bundle")
    for form, words in FORMS:
        recorded = tool.sound(["record", "bundle", *options, *words], session)
        traced = tool.sound(["trace", *words], plain.bundle)
        demand(
            traced.out == recorded.out and recorded.bundle == plain.bundle,
            f"{name}: another trace{form} is drawn of the bundle",
        )
        yield Target(
            f"{name}, record{form}",
            ["record", "bundle", *options, *words],
            session,
            b"TraceFault\n",
        )
        yield Target(f"{name}, trace{form}", ["trace", *words], plain.bundle, b"SinkFailed\n")
    for command, words, begin in OTHERS:
        shown = tool.sound([command, *words], plain.bundle)
        demand(
            shown.out.startswith(begin) and shown.bundle == OLD,
            f"{name}: {command} prints {shown.out!r}",
        )
        demand(
            command != "info" or shown.out == entries(plain.bundle).get(MANIFEST, b"") + b"\n",
            f"{name}: info prints another manifest",
        )
        yield Target(
            f"{name}, {' '.join((command, *words[1:]))}",
            [command, *words],
            plain.bundle,
            b"SinkFailed\n",
        )
    yield from writing_targets(tool, name, plain.bundle)


def writing_targets(tool: Sweep, name: str, bundle: bytes) -> Iterator[Target]:
    """The commands that write the bundle of a recording again, byte for byte."""
    for command, begin in (("upgrade", b""), ("salvage", b"events=")):
        written = tool.sound([command, "bundle"], bundle)
        demand(
            written.bundle == bundle and written.out.startswith(begin),
            f"{name}: {command} writes another bundle",
        )
    yield Target(
        f"{name}, upgrade", ["upgrade", "bundle"], bundle, b"", unread=b"Open SourceFault\n"
    )
    yield Target(
        f"{name}, salvage",
        ["salvage", "bundle"],
        bundle,
        b"SinkFailed\n",
        unwritten=b"SinkFailed\n",
    )


def cut_session(example: bytes) -> bytes:
    """The example with an output that is longer than the limit of 100 bytes."""
    lines = example.decode().splitlines()
    last = max(i for i, line in enumerate(lines) if '"kind":"test-finished"' in line)
    event = json.loads(lines[last])
    attempt = event["run-statuses"]["statuses"][-1]
    attempt["output"]["output"]["output"]["split"]["stdout"] = "61" * 1000
    lines[last] = json.dumps(event)
    return "\n".join(lines).encode()


def targets(tool: Sweep) -> Iterator[Target]:
    """All that is swept."""
    example = (TOP / "crates/rezovamy/data/example.session").read_bytes()
    yield from targets_of(tool, "example", example, [])
    yield from targets_of(tool, "cut output", cut_session(example), ["--max-output", "100"])
    kinds = subprocess.run(
        [sys.executable, "-m", "workshop.make_kinds"], cwd=TOP, capture_output=True, check=True
    ).stdout
    yield from targets_of(tool, "each kind", kinds, [])
    made = tool.sound(["sample", "9", "bundle"], b"")
    demand(made.out == b"events=20 outputs=9\n", f"sample: it prints {made.out!r}")
    yield Target("sample", ["sample", "9", "bundle"], b"", b"SinkFailed\n")
    for word in ("--help", "--version"):
        yield Target(word, [word], b"", b"SinkFailed\n")


def main() -> None:
    parser = command_line(__doc__)
    parser.add_argument("program", help="the built program")
    parser.add_argument(
        "--only", default="", metavar="WORD", help="the runs that have this word in their names"
    )
    parser.add_argument(
        "--from",
        dest="first",
        type=whole(1, MOST),
        default=1,
        metavar="N",
        help="the first call that is refused",
    )
    parser.add_argument(
        "--to",
        dest="last",
        type=whole(1, MOST),
        default=MOST,
        metavar="N",
        help="the last call that is refused",
    )
    parser.add_argument("--kept", metavar="FILE", help="where the calls stand that were refused")
    asked = parser.parse_args()
    demand_program(parser, asked.program)
    program = os.path.abspath(asked.program)
    kept = Kept(asked.kept, program)
    with tempfile.TemporaryDirectory() as folder:
        tool = Sweep(program, Path(folder))
        for target in targets(tool):
            if asked.only in target.name:
                sweep(tool, kept, target, asked.first, asked.last)


if __name__ == "__main__":
    main()
