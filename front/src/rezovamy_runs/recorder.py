"""The built program: where it is, and what it answers. Nothing else starts it."""

from __future__ import annotations

import os
import pathlib
import shutil
import signal
import subprocess
from collections.abc import Sequence
from typing import IO

from rezovamy_runs.bundles import bundle_file, opening
from rezovamy_runs.faults import file_kinds
from rezovamy_runs.faults.causes import Call
from rezovamy_runs.faults.explain import explain_or_show
from rezovamy_runs.faults.fault import Fault

# The folder that holds the package's `src`: `front` of a clone, or `lib/rezovamy` of an
# installation.
FRONT = pathlib.Path(__file__).resolve().parents[2]
DEFAULT_LIMIT = 268435456

Word = str | os.PathLike[str]


class Rejected(Fault):
    """The program ended with a status that isn't 0, and why."""


def places() -> list[pathlib.Path]:
    """Return where the program may be.

    That is where REZOVAMY says, beside the front end, in this repository, or on the path.
    """
    if os.environ.get("REZOVAMY"):
        return [pathlib.Path(os.environ["REZOVAMY"])]
    found = shutil.which("rezovamy")
    built = FRONT.parent / "crates/rezovamy/out/rezovamy"
    return [FRONT / "rezovamy", FRONT.parent / "bin/rezovamy", built] + (
        [pathlib.Path(found)] if found else []
    )


def find() -> pathlib.Path:
    """Return the path of the program."""
    for path in places():
        if path.is_file() and os.access(path, os.X_OK):
            return path.resolve()
    if os.environ.get("REZOVAMY"):
        raise Fault(
            f"no program is at {os.environ['REZOVAMY']}, where REZOVAMY says: "
            "correct it, or unset it"
        )
    raise Fault(
        "the program rezovamy isn't there: install it with front/install.sh ~/.local, "
        "or name its path in REZOVAMY"
    )


def limits(size: int) -> list[str]:
    """Return options that let the program take so many bytes."""
    most = str(max(DEFAULT_LIMIT, size))
    return ["--session-limit", most, "--read-limit", most] if size > DEFAULT_LIMIT else []


def run(
    words: Sequence[Word],
    *,
    input: bytes | None = None,
    stdin: IO[bytes] | None = None,
    stdout: IO[bytes] | int = subprocess.PIPE,
) -> bytes:
    """Run the program, and return what it prints; its input is bytes, or comes from a stream.

    It runs in a group of its own, so that a key that ends the front end doesn't end it halfway.
    """
    path = find()
    try:
        done = subprocess.run(
            [path, *words],
            input=input,
            stdin=stdin,
            stdout=stdout,
            stderr=subprocess.PIPE,
            start_new_session=True,
            check=False,
        )
    except OSError as error:
        raise not_started(path, error) from error
    if done.returncode != 0:
        line = done.stderr.decode("utf-8", "replace").strip()
        begins = input[: file_kinds.MOST] if input is not None else begin_of(stdin)
        raise Rejected(sentence(words, done.returncode, line, begins))
    return done.stdout or b""


def start(words: Sequence[Word], kept: IO[bytes]) -> subprocess.Popen[bytes]:
    """Start the program with pipes for its streams, and with a file that it keeps open."""
    path = find()
    try:
        return subprocess.Popen(
            [path, *words],
            stdin=subprocess.PIPE,
            stdout=subprocess.PIPE,
            stderr=subprocess.PIPE,
            pass_fds=[kept.fileno()],
            start_new_session=True,
        )
    except OSError as error:
        raise not_started(path, error) from error


def not_started(path: pathlib.Path, error: OSError) -> Fault:
    """Return the fault of a program that can't be started."""
    do = "build it anew, or name another in REZOVAMY"
    return Fault(f"{path} can't be run: {error.strerror}; {do}")


def run_on_bundle(
    words: Sequence[Word], path: pathlib.Path, stdout: IO[bytes] | int = subprocess.PIPE
) -> bytes:
    """Run a command that reads a bundle on that at a path, and return what it prints.

    If the program rejects the bundle, the fault names the path.
    """
    with opening.plain(path) as plain:
        try:
            return run([*words, *limits(bundle_file.size_of(plain))], stdin=plain, stdout=stdout)
        except Rejected as error:
            raise Fault(f"{path}: {error}") from error


def begin_of(stream: IO[bytes] | None) -> bytes | None:
    """Return the first bytes of what the program was given, None where they can't be read again."""
    try:
        return os.pread(stream.fileno(), file_kinds.MOST, 0) if stream else None
    except (OSError, ValueError):
        return None


def signal_of(number: int) -> str:
    """Return the name of a signal."""
    try:
        return signal.Signals(number).name
    except ValueError:
        return f"signal {number}"


def sentence(words: Sequence[Word], status: int, line: str, begins: bytes | None = None) -> str:
    """Say what a fault of the program means, and what to do."""
    command = f"rezovamy {words[0]}"
    if status < 0:
        ended = f"{command} was ended by {signal_of(-status)}"
        return f"{ended}: see what `ulimit -a` allows, and try it again"
    if not line:
        ended = f"{command} ended with status {status} and said nothing"
        return f"{ended}: try it again, or install the program again"
    call = Call(tuple(os.fspath(word) for word in words), begins)
    return f"{command}: {explain_or_show(line, call)}"


def hear_signals() -> None:
    """Let a signal break off what is done next, where it was heard while the run went on."""
    for number in (signal.SIGINT, signal.SIGTERM, signal.SIGHUP):
        if signal.getsignal(number) is not signal.SIG_IGN:
            signal.signal(number, signal.default_int_handler)


def refuse_missing(path: pathlib.Path) -> None:
    """Raise a fault if a bundle isn't there, or has no bytes.

    A program that is another one may end well, and write nothing.
    """
    if not path.exists() or not path.stat().st_size:
        raise Fault(
            f"{find()} wrote no bundle: it isn't rezovamy, so name another program in REZOVAMY"
        )
