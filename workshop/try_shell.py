"""Runs the built program as a shell may run it, and prints only what is wrong.

    python3 -m workshop.try_shell [crates/rezovamy/out/rezovamy]

Standard streams that are closed, full or left by their reader, files that can't be written, and
limits of the system: each is a line for `sh`, with what must come of it. docs/RELIABILITY.md has
the same as a table. A fresh clone, with a package of the program in dist/, is installed without
the kit. A small file system and another user need rights; where there are none, their
lines are named on standard error, and left out. It needs Linux.
"""

from __future__ import annotations

import dataclasses
import os
import shlex
import signal
import subprocess
import sys
import tempfile
from pathlib import Path
from typing import TypeAlias

from rezovamy_runs.command_line import command_line, demand_program, heed_signals, say
from workshop import PROGRAM, TOP
from workshop.cases.hostile import BUNDLE, SESSION
from workshop.cases.samples import BUNDLE_OF_NONE
from workshop.cases.texts import PAUSE_ALONE

LONGEST_RUN = 60
OLD = b"an older file"
# More than a pipe holds of its trace.
LARGE_SAMPLE = "300"
# The greatest file under `ulimit -f 1`, and the greatest on the small file system.
BLOCK, PAGE = 512, 4096

SMALL = "unshare --map-root-user --mount sh -c 'mount -t tmpfs -o size=4k none small && %s'"
NOBODY = "setpriv --reuid=65534 --regid=65534 --clear-groups " if os.geteuid() == 0 else ""


@dataclasses.dataclass(frozen=True)
class Try:
    """A line for a shell, and what must come of it.

    In its folder stand `session` and its `bundle`, a `large` bundle, `old` and `locked`, which hold
    an older file, the folders `folder` and `small`, and the pipe `pipe`. `file` is what `b` is
    after it, None where there is none, and `old` what `old` is.
    """

    name: str
    line: str
    status: int = 0
    said: bytes = b""
    printed: bytes = b""
    file: bytes | None = None
    old: bytes = OLD


def left(line: str) -> str:
    """A line whose standard output is a pipe that its reader has left."""
    return f"exec 3<>pipe 4>pipe 3<&-; {line} >&4"


READERS = (
    "info",
    "trace",
    "trace --message-format json-pretty",
    "replay",
    "report",
    "slots",
    "rerun",
    "view",
)
PRINTERS = [
    *[f"rezovamy {words} < large" for words in READERS],
    "rezovamy --help",
    "rezovamy --version",
]
RECORD = "rezovamy record b < session"

STANDARD_OUTPUT = [
    Try("record, output closed", f"{RECORD} >&-", 11, b"TraceFault\n", file=BUNDLE),
    Try("record, output full", f"{RECORD} > /dev/full", 11, b"TraceFault\n", file=BUNDLE),
    Try("record, output left", left(RECORD), 11, b"TraceFault\n", file=BUNDLE),
    *[Try("output closed", f"{line} >&-", 11, b"SinkFailed\n") for line in PRINTERS],
    *[Try("output full", f"{line} > /dev/full", 11, b"SinkFailed\n") for line in PRINTERS],
    *[Try("output left", left(line), 11, b"SinkFailed\n") for line in PRINTERS],
    Try("a report of no run, output closed", "rezovamy report < bundle >&-"),
    Try(
        "sample, output closed", "rezovamy sample 0 b >&-", 11, b"SinkFailed\n", file=BUNDLE_OF_NONE
    ),
    Try(
        "output left within the text",
        "{ rezovamy trace < large; echo $? > status; } | head -c 1 > first; exit $(cat status)",
        11,
        b"SinkFailed\n",
    ),
    Try("upgrade, output closed", "rezovamy upgrade b < bundle >&-", file=BUNDLE),
    Try(
        "salvage, output closed",
        "rezovamy salvage b < bundle >&-",
        11,
        b"SinkFailed\n",
        file=BUNDLE,
    ),
    Try(
        "salvage, output full",
        "rezovamy salvage b < bundle > /dev/full",
        11,
        b"SinkFailed\n",
        file=BUNDLE,
    ),
    Try("faulty words, output closed", "rezovamy record >&-", 2, b"MissingPositional at=1\n"),
]

STANDARD_ERROR = [
    Try("record, errors closed", f"{RECORD} 2>&-", printed=PAUSE_ALONE, file=BUNDLE),
    Try("no bytes, errors closed", "rezovamy record b < /dev/null 2>&-", 5),
    Try("no bytes, errors full", "rezovamy record b < /dev/null 2> /dev/full", 5),
    Try("faulty words, errors closed", "rezovamy recor 2>&-", 2),
    Try("output and errors closed", f"{RECORD} >&- 2>&-", 11, file=BUNDLE),
    Try("all closed", "rezovamy record b <&- >&- 2>&-", 3),
]

STANDARD_INPUT = [
    Try("record, input closed", "rezovamy record b <&-", 3, b"SourceFault\n"),
    Try("record, input a folder", "rezovamy record b < folder", 3, b"SourceFault\n"),
    *[Try("input closed", f"rezovamy {words} <&-", 3, b"SourceFault\n") for words in READERS],
    *[
        Try("input a folder", f"rezovamy {words} < folder", 3, b"SourceFault\n")
        for words in READERS
    ],
    Try("upgrade, input closed", "rezovamy upgrade b <&-", 3, b"Open SourceFault\n"),
    Try("salvage, input closed", "rezovamy salvage b <&-", 3, b"SourceFault\n"),
    Try("upgrade, input a folder", "rezovamy upgrade b < folder", 3, b"Open SourceFault\n"),
    Try("salvage, input a folder", "rezovamy salvage b < folder", 3, b"SourceFault\n"),
    Try(
        "sample, input closed",
        "rezovamy sample 0 b <&-",
        printed=b"events=2 outputs=0\n",
        file=BUNDLE_OF_NONE,
    ),
    Try("input and output closed", "rezovamy info <&- >&-", 3, b"SourceFault\n"),
]

PATHS = [
    Try("a full device", "rezovamy record /dev/full < session", 10, b"BundleFault\n"),
    Try("upgrade into a full device", "rezovamy upgrade /dev/full < bundle", 10, b"BundleFault\n"),
    Try("salvage into a full device", "rezovamy salvage /dev/full < bundle", 10, b"SinkFailed\n"),
    Try("upgrade of an older file", "rezovamy upgrade old < bundle", old=BUNDLE),
    Try(
        "upgrade of an older file, refused",
        "rezovamy upgrade old < session",
        12,
        b"Open ReadArchive fault=BadMagic\n",
    ),
    Try(
        "salvage of an older file",
        "rezovamy salvage old < bundle",
        printed=b"events=1 outputs=0\n",
        old=BUNDLE,
    ),
    Try(
        "salvage of an older file, refused",
        "rezovamy salvage old < session",
        12,
        b"ReadArchive fault=BadMagic\n",
    ),
    Try("a bundle's own file", "cp bundle b; rezovamy upgrade b < b", file=BUNDLE),
    Try("a folder", "rezovamy record folder < session", 10, b"BundleFault\n"),
    Try("in no folder", "rezovamy record none/b < session", 10, b"BundleFault\n"),
    Try("below a file", "rezovamy record old/b < session", 10, b"BundleFault\n"),
    Try("the empty word", "rezovamy record '' < session", 10, b"BundleFault\n"),
    Try(
        "a name of 300 bytes", "rezovamy record $(printf %0300d 0) < session", 10, b"BundleFault\n"
    ),
    Try("an older file", "rezovamy record old < session", printed=PAUSE_ALONE, old=BUNDLE),
    Try("an older file, session refused", "rezovamy record old < bundle", 5, b"ParseHead\n"),
    Try(
        "the session's own file",
        "cp session b; rezovamy record b < b",
        printed=PAUSE_ALONE,
        file=BUNDLE,
    ),
    Try(
        "a link", "ln -s old link; rezovamy record link < session", printed=PAUSE_ALONE, old=BUNDLE
    ),
    Try(
        "a link to no file",
        "ln -s b link; rezovamy record link < session",
        printed=PAUSE_ALONE,
        file=BUNDLE,
    ),
    Try(
        "a pipe",
        "cat pipe > b & rezovamy record pipe < session; wait",
        printed=PAUSE_ALONE,
        file=BUNDLE,
    ),
    Try(
        "standard output, a pipe",
        "rezovamy record /dev/stdout < session | cat",
        printed=BUNDLE + PAUSE_ALONE,
    ),
    Try(
        "one path for two",
        f"{RECORD} > first & {RECORD}; s=$?; wait $! && exit $s",
        printed=PAUSE_ALONE,
        file=BUNDLE,
    ),
]

LIMITS = [
    Try("stopped while it reads", "exec 3<>pipe; timeout 0.5 rezovamy record b < pipe", 124),
    Try("little memory", "ulimit -v 50000; rezovamy sample 10000 b", 70, b"OutOfMemory\n"),
    Try(
        "files of a block, the signal ignored",
        f"trap '' XFSZ; ulimit -f 1; {RECORD}",
        10,
        b"BundleFault\n",
        file=BUNDLE[:BLOCK],
    ),
    Try(
        "files of a block",
        f"ulimit -c 0; ulimit -f 1; exec {RECORD}",
        -signal.SIGXFSZ,
        file=BUNDLE[:BLOCK],
    ),
]

# What the first lines of README.md do: no kit, no cargo and no built program are there.
BARE = "env -i HOME=$PWD PATH=/usr/bin:/bin"
INSTALLATION = [
    Try(
        "a fresh clone is installed from its package",
        f"git clone -q {shlex.quote(str(TOP))} clone && cd clone &&"
        " python3 -m workshop.make_dist --program $(command -v rezovamy) && cd .. &&"
        f" {BARE} clone/front/install.sh to > said &&"
        f" {BARE} to/bin/rezovamy record b < session &&"
        f" {BARE} to/bin/rezovamy-runs show ./b > shown",
        printed=PAUSE_ALONE,
        file=BUNDLE,
    ),
]

# Where rights are needed: a line that needs the same, and what is tried.
OTHER_USER = (
    f"{NOBODY}rezovamy --version > first",
    [
        Try("a locked file", f"{NOBODY}rezovamy record locked < session", 10, b"BundleFault\n"),
        Try("in a locked folder", f"chmod a-w .; {NOBODY}{RECORD}", 10, b"BundleFault\n"),
    ],
)


def small_file_system(large: bytes) -> tuple[str, list[Try]]:
    """What is tried on a file system with room for a page: a bundle of another size, and one that
    is there.
    """
    sample = f"cd small; rezovamy sample {LARGE_SAMPLE} b; s=$?; cp b ..; exit $s"
    again = f"cd small; cp ../bundle b; rezovamy sample {LARGE_SAMPLE} b; s=$?; cp b ..; exit $s"
    return SMALL % "true", [
        Try("a full file system", SMALL % sample, 10, b"BundleFault\n", file=large[:PAGE]),
        Try(
            "an older file on a full file system",
            SMALL % again,
            10,
            b"BundleFault\n",
            file=large[:PAGE],
        ),
    ]


# Status, standard error, standard output, and the files `b` and `old` after a line.
Done: TypeAlias = tuple[int, bytes, bytes, bytes | None, bytes | None]


def content(path: Path) -> bytes | None:
    """Return what a file holds, None where it isn't there."""
    return path.read_bytes() if path.exists() else None


class Shell:
    """Runs lines, each in a folder of its own."""

    def __init__(self, commands: str) -> None:
        self.paths = {**os.environ, "PATH": f"{commands}:{os.environ['PATH']}"}
        self.large = b""

    def run(self, line: str) -> Done:
        """Status, standard error, standard output, and the files `b` and `old` after a line."""
        with tempfile.TemporaryDirectory() as name:
            folder = Path(name)
            self.fill(folder)
            done = subprocess.run(
                ["sh", "-c", line],
                cwd=folder,
                env=self.paths,
                stdin=subprocess.DEVNULL,
                capture_output=True,
                timeout=LONGEST_RUN,
            )
            written, old = (content(folder / name) for name in ("b", "old"))
            return done.returncode, done.stderr, done.stdout, written, old

    def fill(self, folder: Path) -> None:
        """Puts into the folder what lines need."""
        for name, data in (
            ("session", SESSION),
            ("bundle", BUNDLE),
            ("large", self.large),
            ("old", OLD),
            ("locked", OLD),
        ):
            (folder / name).write_bytes(data)
        for name in ("folder", "small"):
            (folder / name).mkdir()
        os.mkfifo(folder / "pipe")
        (folder / "locked").chmod(0o444)
        folder.chmod(0o755)

    def faults(self, tried: Try) -> list[str]:
        """What is wrong about a try."""
        names = ("status", "standard error", "standard output", "the file", "the older file")
        must = (tried.status, tried.said, tried.printed, tried.file, tried.old)
        return [
            f"{what} is {found!r} in place of {want!r}"
            for what, want, found in zip(names, must, self.run(tried.line))
            if want != found
        ]

    def allowed(self, needed: str, tries: list[Try]) -> list[Try]:
        """The tries, or none where a line that needs the same rights is refused."""
        if self.run(needed)[0] == 0:
            return tries
        say(
            f"left out, since there are no rights for it: "
            f"{', '.join(tried.name for tried in tries)}"
        )
        return []


def all_tries(shell: Shell) -> list[Try]:
    return [
        *STANDARD_OUTPUT,
        *STANDARD_ERROR,
        *STANDARD_INPUT,
        *PATHS,
        *LIMITS,
        *INSTALLATION,
        *shell.allowed(*OTHER_USER),
        *shell.allowed(*small_file_system(shell.large)),
    ]


def try_all(shell: Shell) -> bool:
    """Prints what is wrong, and returns whether anything is."""
    wrong = False
    status, _, _, large, _ = shell.run(f"rezovamy sample {LARGE_SAMPLE} b")
    if status != 0 or large is None:
        sys.exit(f"FAULT: no sample is made: {status}")
    shell.large = large
    for tried in all_tries(shell):
        for fault in shell.faults(tried):
            print(f"FAULT: {tried.name}: {tried.line}: {fault}")
            wrong = True
    return wrong


def main() -> None:
    heed_signals()
    parser = command_line(__doc__)
    parser.add_argument("program", nargs="?", default=PROGRAM, help="the built program")
    path = parser.parse_args().program
    demand_program(parser, path)
    with tempfile.TemporaryDirectory() as commands:
        Path(commands).chmod(0o755)
        Path(commands, "rezovamy").symlink_to(Path(path).resolve())
        sys.exit(1 if try_all(Shell(commands)) else 0)


if __name__ == "__main__":
    main()
