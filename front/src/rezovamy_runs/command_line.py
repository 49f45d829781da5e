"""The command lines of all programs here: parsers, types of options, and what is printed."""

from __future__ import annotations

import argparse
import dataclasses
import io
import os
import re
import signal
import sys
from collections.abc import Callable, Iterable
from typing import BinaryIO, TextIO, TypeVar

from rezovamy_runs import terminal

Made = TypeVar("Made")
Options = TypeVar("Options")


def matching(pattern: str, made: Callable[[str], Made]) -> Callable[[str], Made]:
    """Return a type of options: words that match a pattern whole."""

    def read(word: str) -> Made:
        if re.fullmatch(pattern, word, re.A) is None:
            raise argparse.ArgumentTypeError(f"{word!r} isn't one")
        return made(word)

    return read


def whole(least: int, most: int) -> Callable[[str], int]:
    """Return a type of options: whole numbers from the least to the most."""

    def read(word: str) -> int:
        if re.fullmatch(r"-?\d{1,18}", word, re.A) is None or not least <= int(word) <= most:
            raise argparse.ArgumentTypeError(f"{word!r} is no whole number from {least} to {most}")
        return int(word)

    return read


def add_run(parser: argparse.ArgumentParser, default: str | None = "last") -> None:
    """Let a command take the name of a run."""
    parser.add_argument(
        "run",
        nargs="?",
        default=default,
        metavar="RUN",
        help="the beginning of a run's id, the path of a bundle, last for the last whole run, or "
        "last-any (last)",
    )


def options_of(kind: type[Options], words: argparse.Namespace) -> Options:
    """Return the options of a command, a dataclass, as they stand in the words that were read."""
    assert dataclasses.is_dataclass(kind)
    values = vars(words)
    return kind(**{field.name: values[field.name] for field in dataclasses.fields(kind)})


def command_line(description: str | None) -> argparse.ArgumentParser:
    """Return a parser of a tool's words, which shows the description as it is."""
    return argparse.ArgumentParser(
        description=description,
        formatter_class=argparse.RawDescriptionHelpFormatter,
        allow_abbrev=False,
    )


def heed_signals() -> None:
    """Let the signals that end a program come as usual.

    What is started inherits those that are ignored, as in the background.
    """
    signal.signal(signal.SIGINT, signal.default_int_handler)
    for number in (signal.SIGTERM, signal.SIGHUP):
        signal.signal(number, signal.SIG_DFL)


def demand_program(parser: argparse.ArgumentParser, path: str | os.PathLike[str]) -> None:
    """End with a fault of the words where no program is at the path."""
    if not os.path.isfile(path) or not os.access(path, os.X_OK):
        parser.error(f"no program is at {path}")


def input_stream() -> BinaryIO:
    """Return standard input as bytes."""
    if sys.stdin is None:
        raise OSError("standard input is closed")
    return sys.stdin.buffer


def discard(stream: TextIO) -> None:
    """Let nothing more be written to a stream, where it can't be."""
    os.dup2(os.open(os.devnull, os.O_WRONLY), stream.fileno())


def print_out(text: str) -> None:
    """Print a text on standard output to its end. After a fault nothing more is printed there."""
    if sys.stdout is None:
        raise OSError("standard output is closed")
    # A path may have bytes that are no text.
    if isinstance(sys.stdout, io.TextIOWrapper):
        sys.stdout.reconfigure(encoding="utf-8", errors="surrogateescape")
    try:
        print(text, end="", flush=True)
    except OSError:
        discard(sys.stdout)
        raise


def print_lines(lines: Iterable[str]) -> None:
    """Print lines on standard output, folded if it is a narrow terminal."""
    print_out(terminal.fitted("".join(f"{line}\n" for line in lines), sys.stdout))


def say(line: str) -> None:
    """Print a line on standard error, if there is one, and somebody reads it."""
    if sys.stderr is None:
        return
    try:
        print(terminal.fitted(line, sys.stderr), file=sys.stderr, flush=True)
    except OSError:
        # What is left of it would fail again at the end, and change the status.
        discard(sys.stderr)
