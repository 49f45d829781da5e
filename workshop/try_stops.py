"""Stops recordings at random moments, and prints what is lost of the events that were accepted.

    python3 -m workshop.try_stops [--tries N] [--seed N] [--summary] [PROGRAM]

`crates/rezovamy/out/rezovamy live` records the run as it goes, and prints how many events were
accepted so far. It is killed when log and store together have a random length, or after a random
time; or its files may not be longer than a random length, or lie on a file system with room for so
much. Then `pack` makes a bundle of the run's directory. This bundle has to have each event that was
accepted, and at most one more, as `record` logs it, with its outputs byte for byte; and `replay`
and `trace` have to read it. Where the run's metadata wasn't accepted, `pack` may refuse.

Of 100 tries, or those of `--tries`, the seed decides session, way and length; the moment is the
machine's. A small file system needs rights and Linux; where there are none it is left out, which is
said on standard error. Nothing is printed where all is well, but for `--summary`: a line that says
what was tried.
"""

from __future__ import annotations

import concurrent.futures
import dataclasses
import functools
import hashlib
import json
import os
import random
import subprocess
import sys
import tempfile
import time
from collections import Counter
from collections.abc import Iterator, Sequence
from pathlib import Path
from typing import Protocol, TypeAlias

from rezovamy_runs.command_line import (
    command_line,
    demand_program,
    heed_signals,
    print_out,
    say,
    whole,
)
from workshop import TOP
from workshop.oracle.container import container, entries

PROGRAM = TOP / "crates/rezovamy/out/rezovamy"
LOG, STORE = "run.log.zst", "store.zip"
# Sessions whose log grows fast, whose store does, and which has events of each kind.
MAKERS = (
    ("many events", ["make_session", "250", "--ends"]),
    ("long outputs", ["make_session", "40", "--distinct", "30000", "--ends"]),
    ("each kind", ["make_kinds"]),
)
KILLED_AT_LENGTH, KILLED_AFTER_TIME, LIMITED, FULL = WAYS = (
    "killed at a length",
    "killed after a time",
    "a limit of length",
    "a full file system",
)
# How a recorder may end: by the signal, with a fault of a write, or whole before it is stopped.
ENDS = {KILLED_AT_LENGTH: (-9, 0), KILLED_AFTER_TIME: (-9, 0), LIMITED: (10, 0), FULL: (10, 0)}
SMALL = (
    'mount -t tmpfs -o size="$1" none small '
    '&& { "$2" live small/run; s=$?; cp -r small/run left; exit $s; }'
)
PAGE = 4096
PAUSE = 0.0002
LONGEST_RUN = 120
# What `pack` ends with where nothing is there yet, or the store lacks the metadata.
WITHOUT_METADATA = (12, 15)


# An output by the path and the content of its entry in the store.
Output: TypeAlias = tuple[bytes, bytes]


@dataclasses.dataclass(frozen=True)
class Session:
    """A session, and what comes of it where nothing stops: the lines of its log, both lengths, and
    the seconds that it takes.
    """

    name: str
    text: bytes
    lines: tuple[bytes, ...]
    lengths: tuple[int, int] = (0, 0)
    seconds: float = 0

    @functools.cached_property
    def outputs(self) -> list[list[Output]]:
        """The outputs of each event, each as the path and the content of its entry in the store."""
        return [list(outputs_of(json.loads(line))) for line in self.text.splitlines()[1:]]


def outputs_of(value: object) -> Iterator[Output]:
    """The outputs in an event, as a store holds them. One without bytes has no entry."""
    if isinstance(value, list):
        for item in value:
            yield from outputs_of(item)
    elif isinstance(value, dict):
        for name, item in value.items():
            yield from outputs_of_member(name, item)


def outputs_of_member(name: str, value: object) -> Iterator[Output]:
    """The output that a member of an event is, or the outputs in it."""
    if name in ("stdout", "stderr", "combined") and isinstance(value, str) and value:
        content = bytes.fromhex(value)
        number = hashlib.sha256(content).digest()[:8].hex()
        yield f"out/{number}-{name}".encode(), content
    else:
        yield from outputs_of(value)


@dataclasses.dataclass(frozen=True)
class Stop:
    """How a recording is stopped: the way, and at which part of the whole."""

    way: str
    part: float

    def of(self, total: int) -> int:
        """The part of so many bytes, at least one."""
        return max(1, int(self.part * total))


@dataclasses.dataclass(frozen=True)
class Left:
    """What a recording left: its status, how many events were accepted, if it said so, its log and
    its store; and what `pack` makes of the directory: status, what it prints, and the bundle.
    """

    status: int
    accepted: int | None
    log: bytes
    store: bytes
    packed: tuple[int, bytes, bytes]


class Lost(Exception):
    """Something that was accepted isn't there, or what comes of it can't be read."""


def demand(condition: bool, what: str) -> None:
    if not condition:
        raise Lost(what)


def accepted_of(printed: bytes) -> int | None:
    """How many events the printed lines say were accepted; the last line may be cut off."""
    lines = printed.split(b"\n")[:-1]
    demand(
        lines == [b"accepted=%d" % count for count in range(len(lines))],
        f"live prints {lines[:3]!r} ..",
    )
    return len(lines) - 1 if lines else None


class Recorder:
    """The recording program, run in a folder of its own for each try."""

    def __init__(self, path: str | Path) -> None:
        self.path = os.path.abspath(path)

    def stopped(self, session: Session, stop: Stop | None) -> Left:
        """What is left of a recording that is stopped, or that comes to its end where there is no
        stop.
        """
        with tempfile.TemporaryDirectory() as name:
            folder = Path(name)
            (folder / "small").mkdir()
            (folder / "session").write_bytes(session.text)
            with open(folder / "session", "rb") as source:
                # Where writes beyond a limit fail, the signal of it has to be ignored, as Python
                # does.
                child = subprocess.Popen(
                    self.words(session, stop),
                    cwd=folder,
                    stdin=source,
                    stdout=subprocess.PIPE,
                    stderr=subprocess.DEVNULL,
                    restore_signals=False,
                )
            # What is printed is less than a pipe holds.
            assert child.stdout is not None
            with child.stdout:
                status = ended(child, session, stop, folder / "run")
                accepted = accepted_of(child.stdout.read())
            run = "left" if stop and stop.way == FULL else "run"
            log, store = (content(folder / run / file) for file in (LOG, STORE))
            packed = Program(self.path).run(["pack", run, "b"], b"", name)
            return Left(status, accepted, log, store, packed)

    def words(self, session: Session, stop: Stop | None) -> list[str]:
        if stop and stop.way == LIMITED:
            return ["prlimit", f"--fsize={stop.of(max(session.lengths))}", self.path, "live", "run"]
        if stop and stop.way == FULL:
            room = max(PAGE, stop.of(sum(session.lengths)))
            return [
                "unshare",
                "--map-root-user",
                "--mount",
                "sh",
                "-c",
                SMALL,
                "sh",
                str(room),
                self.path,
            ]
        return [self.path, "live", "run"]


def ended(child: subprocess.Popen[bytes], session: Session, stop: Stop | None, run: Path) -> int:
    """Wait until the recording has ended, or is to be killed, and returns its status."""
    if stop and stop.way == KILLED_AT_LENGTH:
        wanted = stop.of(sum(session.lengths))
        while child.poll() is None and sum(length(run / file) for file in (LOG, STORE)) < wanted:
            time.sleep(PAUSE)
        child.kill()
    elif stop and stop.way == KILLED_AFTER_TIME:
        time.sleep(stop.part * session.seconds)
        child.kill()
    return child.wait(LONGEST_RUN)


def length(path: Path) -> int:
    return path.stat().st_size if path.exists() else 0


def content(path: Path) -> bytes:
    return path.read_bytes() if path.exists() else b""


class Reader(Protocol):
    """What reads the bundle of a run that was stopped."""

    def sound(self, words: Sequence[str], source: bytes, folder: str) -> tuple[bytes, bytes]:
        """Return standard output and the file `b` of a command that has to succeed."""


class Program:
    """The built program."""

    def __init__(self, path: str | Path) -> None:
        self.path = os.path.abspath(path)

    def run(self, words: Sequence[str], source: bytes, folder: str) -> tuple[int, bytes, bytes]:
        """Status, standard output, and the file `b` where it is there."""
        done = subprocess.run(
            [self.path, *words], cwd=folder, input=source, capture_output=True, timeout=LONGEST_RUN
        )
        return done.returncode, done.stdout, content(Path(folder, "b"))

    def sound(self, words: Sequence[str], source: bytes, folder: str) -> tuple[bytes, bytes]:
        """What a command prints that has to succeed, and the file `b`."""
        status, out, bundle = self.run(words, source, folder)
        demand(status == 0, f"{words[0]} ends with status {status}")
        return out, bundle


def made(recorder: Recorder, program: Reader, name: str, words: Sequence[str]) -> Session:
    """The session that a tool makes, and what comes of it."""
    text = subprocess.run(
        [sys.executable, "-m", f"workshop.{words[0]}", *words[1:]],
        cwd=TOP,
        capture_output=True,
        check=True,
    ).stdout
    with tempfile.TemporaryDirectory() as folder:
        log = entries(program.sound(["record", "b"], text, folder)[1])[LOG.encode()]
    session = Session(name, text, tuple(log.splitlines(keepends=True)))
    begun = time.monotonic()
    left = recorder.stopped(session, None)
    demand(
        left.status == 0 and left.log == log,
        f"{name}: live ends with status {left.status}, or logs something else",
    )
    return dataclasses.replace(
        session, lengths=(len(log), len(left.store)), seconds=time.monotonic() - begun
    )


def check(program: Reader, session: Session, left: Left) -> int | None:
    """Hold what is packed against what was accepted, and return how many events that are."""
    with tempfile.TemporaryDirectory() as folder:
        status, out, bundle = left.packed
        if left.accepted is None and status in WITHOUT_METADATA:
            return None
        demand(status == 0, f"pack ends with status {status}")
        parts = entries(bundle)
        log, store = parts[LOG.encode()], entries(parts[STORE.encode()])
        lines = tuple(log.splitlines(keepends=True))
        accepted = left.accepted or 0
        demand(
            accepted <= len(lines) <= accepted + 1,
            f"{len(lines)} events are packed, {accepted} were accepted",
        )
        demand(lines == session.lines[: len(lines)], "another log is packed")
        kept = [output for event in session.outputs[: len(lines)] for output in event]
        demand(
            all(store.get(path) == content for path, content in kept),
            "an output isn't packed as it was",
        )
        named = len({path for path, _ in kept})
        counted = f"events={len(lines)} outputs={named}".encode()
        demand(out in (counted + b"\n", counted + b" stopped\n"), f"pack prints {out!r}")
        demand(left.status != 0 or out == counted + b"\n", "a whole run is packed as stopped")
        replayed, _ = program.sound(["replay"], bundle, folder)
        demand(replayed.count(b"\n") == 1 + len(lines), "a replay has not a line for each event")
        json.loads(program.sound(["trace"], bundle, folder)[0])
        return len(lines)


def is_allowed() -> bool:
    """Whether a small file system can be made."""
    with tempfile.TemporaryDirectory() as folder:
        words = [
            "unshare",
            "--map-root-user",
            "--mount",
            "mount",
            "-t",
            "tmpfs",
            "-o",
            "size=4k",
            "none",
            folder,
        ]
        try:
            return (
                subprocess.run(words, stdin=subprocess.DEVNULL, capture_output=True).returncode == 0
            )
        except FileNotFoundError:
            return False


def plan(
    seed: int, tries: int, sessions: Sequence[Session], ways: Sequence[str]
) -> Iterator[tuple[Session, Stop]]:
    """What is tried, by the seed."""
    chance = random.Random(seed)
    for number in range(tries):
        yield chance.choice(sessions), Stop(ways[number % len(ways)], chance.random())


class Summary:
    """What was tried."""

    def __init__(self) -> None:
        self.counts: Counter[str] = Counter()
        self.accepted = self.packed = 0

    def add(self, session: Session, stop: Stop, left: Left, packed: int | None) -> None:
        self.counts[stop.way] += 1
        self.counts["early"] += left.accepted is None
        self.counts["whole"] += left.accepted == len(session.lines)
        self.counts["in a line"] += not left.log.endswith(b"\n") and left.log != b""
        self.counts["in an entry"] += ends_in_entry(left.store)
        self.accepted += left.accepted or 0
        self.packed += packed or 0

    def text(self, seed: int) -> str:
        ways = ", ".join(f"{self.counts[way]} {way}" for way in WAYS)
        places = (
            f"{self.counts['in a line']} in a line of the log, {self.counts['in an entry']} in an "
            f"entry of the store"
        )
        ends = (
            f"{self.counts['early']} before the metadata was accepted, {self.counts['whole']} "
            f"after the last event"
        )
        tries = sum(self.counts[way] for way in WAYS)
        events = f"{self.accepted} events accepted, {self.packed} packed"
        return f"{tries} tries with seed {seed}: {ways}; {places}; {ends}; {events}\n"


def ends_in_entry(store: bytes) -> bool:
    """Whether a store is cut off within its magic or an entry."""
    spelled = container(entries(store).items())
    return len(store) > 0 and store not in (spelled, spelled[:-1])


def tried(
    recorder: Recorder, program: Reader, session: Session, stop: Stop
) -> tuple[Left, int | None] | str:
    """Return what a try left and how many events are packed of it, or what is wrong."""
    try:
        left = recorder.stopped(session, stop)
        demand(left.status in ENDS[stop.way], f"live ends with status {left.status}")
        return left, check(program, session, left)
    except (Lost, subprocess.TimeoutExpired) as fault:
        return f"{session.name}, {stop.way}, {stop.part:.6f}: {fault}"


def try_all(recorder: Recorder, program: Program, seed: int, tries: int, summarized: bool) -> bool:
    """Prints what is wrong, and returns whether anything is."""
    sessions = [made(recorder, program, *maker) for maker in MAKERS]
    ways = WAYS if is_allowed() else WAYS[:-1]
    if ways != WAYS:
        say(f"left out, since there are no rights for it: {FULL}")
    planned = list(plan(seed, tries, sessions, ways))
    with concurrent.futures.ThreadPoolExecutor(os.cpu_count()) as pool:
        found = list(pool.map(lambda one: tried(recorder, program, *one), planned))
    summary, wrong = Summary(), False
    for (session, stop), result in zip(planned, found):
        if isinstance(result, str):
            print_out(f"FAULT: {result}\n")
            wrong = True
        else:
            summary.add(session, stop, *result)
    if summarized:
        print_out(summary.text(seed))
    return wrong


def main() -> None:
    heed_signals()
    parser = command_line(__doc__)
    parser.add_argument(
        "program", nargs="?", default=PROGRAM, metavar="PROGRAM", help="the built program"
    )
    parser.add_argument(
        "--tries",
        type=whole(1, 10**6),
        default=100,
        metavar="N",
        help="how often it is stopped (100)",
    )
    parser.add_argument(
        "--seed", type=whole(0, 10**9), default=1, metavar="N", help="what decides where (1)"
    )
    parser.add_argument("--summary", action="store_true", help="print what was tried")
    asked = parser.parse_args()
    demand_program(parser, asked.program)
    try:
        recorder, program = Recorder(asked.program), Program(asked.program)
        is_wrong = try_all(recorder, program, asked.seed, asked.tries, asked.summary)
        sys.exit(int(is_wrong))
    except Lost as fault:
        sys.exit(f"FAULT: {fault}")


if __name__ == "__main__":
    main()
