"""Says what a fault line of the program means, and what to do about it."""

from __future__ import annotations

import argparse
import dataclasses
import os

from rezovamy_runs.command_line import input_stream, options_of, print_lines
from rezovamy_runs.faults import file_kinds
from rezovamy_runs.faults.causes import Call
from rezovamy_runs.faults.explain import explain
from rezovamy_runs.faults.fault import Fault
from rezovamy_runs.formatting import name

SUMMARY = (
    "say what a fault line of rezovamy means, and what to do; "
    "the words of that call after -- make it more exact"
)
TAKES_REST = True
EXAMPLE = "rezovamy-runs explain UnknownOption at=1 -- info run.bundle"
MOST = 65536


@dataclasses.dataclass(frozen=True)
class Options:
    """The options of `explain`."""

    line: list[str]
    input: str | None
    rest: list[str]


def add_options(parser: argparse.ArgumentParser) -> None:
    """Take the line, and what is known of the call that answered it."""
    parser.add_argument(
        "line",
        nargs="*",
        metavar="LINE",
        help="the line that rezovamy printed, in one word or several; - reads it",
    )
    parser.add_argument("--input", metavar="FILE", help="what rezovamy was given on standard input")


def line_of_input() -> str:
    """Return what standard input has."""
    try:
        line = input_stream().read(MOST).decode("utf-8", "backslashreplace").strip("\n")
    except OSError as error:
        raise Fault(
            f"{error.strerror or error}: give the line as words, as in {EXAMPLE}"
        ) from error
    if not line:
        raise Fault(
            "standard input has no line: "
            "let rezovamy's standard error go there, by 2>&1 before the pipe"
        )
    return line


def line_of(words: list[str]) -> str:
    """Return the line that is asked for."""
    if words == ["-"]:
        return line_of_input()
    if not words:
        raise Fault(f"a line is wanted, as in {EXAMPLE}", 2)
    return " ".join(words)


def call_of(options: Options) -> Call:
    """Return what is known of the call that answered the line."""
    rest = options.rest
    if rest and os.path.basename(rest[0]) == "rezovamy":
        rest = rest[1:]
    begins = file_kinds.first_bytes(options.input) if options.input else None
    if options.input and begins is None:
        raise Fault(
            f"{name(options.input)} can't be read: "
            "name what rezovamy was given, or leave --input out"
        )
    return Call(tuple(rest), begins)


def run(words: argparse.Namespace) -> int:
    """Print the sentence for the line."""
    options = options_of(Options, words)
    line = line_of(options.line)
    sentence = explain(line, call_of(options))
    if sentence is None:
        raise Fault(
            f"rezovamy has no fault line `{name(line)}`: "
            f"give it as it was printed, as in {EXAMPLE}"
        )
    print_lines([sentence])
    return 0
