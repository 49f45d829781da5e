"""The programs that are installed, each with the parser of its words."""

from __future__ import annotations

import argparse
import dataclasses

from rezovamy_runs import cli
from rezovamy_runs.answers import PROGRAM
from rezovamy_runs.commands import junit_xml, session_from_libtest
from rezovamy_runs.faults import causes
from rezovamy_runs.manuals.tables import Program, program_of

RECORDER = "Records a run of tests from its session, and prints what is in the bundle of a run."
# What each command of the recorder does, and the words that stand before its options.
RECORDING = {
    "record": (
        "record the session on standard input into BUNDLE, and print its trace",
        ("BUNDLE",),
    ),
    "info": ("print the manifest of the bundle on standard input", ()),
    "trace": ("print the trace of the bundle on standard input", ()),
    "replay": ("print a line for each event of the bundle on standard input", ()),
    "report": ("print the results of each run of the bundle on standard input, as JSON", ()),
    "slots": (
        "print how long each slot of the run in the bundle on standard input "
        "was busy, paused and idle",
        (),
    ),
    "rerun": (
        "print which tests are to run again after the run in the bundle on standard input",
        (),
    ),
    "view": (
        "print each test of the bundle on standard input with its attempts, as JSON, "
        "and the outputs behind it",
        (),
    ),
    "sample": ("record a generated session of N tests into BUNDLE", ("N", "BUNDLE")),
    "upgrade": (
        "write the bundle on standard input again into BUNDLE, as it would be recorded today",
        ("BUNDLE",),
    ),
    "salvage": (
        "write what is whole of the stopped recording in the bundle on standard input into BUNDLE",
        ("BUNDLE",),
    ),
    "live": (
        "record the session on standard input into the new folder DIR, event by event",
        ("DIR",),
    ),
    "pack": (
        "write the bundle of the run in the folder DIR, whole or stopped, into BUNDLE",
        ("DIR", "BUNDLE"),
    ),
}
# What takes a number of bytes, as causes.py says it of options.
BYTES = "a number of bytes"
OPERANDS = {
    "BUNDLE": "the file of the bundle; options stand after it",
    "DIR": "the folder of a run that `live` makes",
    "N": "how many tests, up to 10000",
}
OPTIONS = {
    "--group-by": "draw a process for each test binary, or one process for all (binary)",
    "--message-format": "write the trace in one line, or over several (json)",
    "--max-output": "the most bytes of an output that is kept whole (10485760)",
    "--read-limit": "the most bytes of the manifest, of the log and of an entry of the store "
    "(268435456)",
    "--session-limit": "the most bytes of standard input that are read (268435456)",
    "--output": "read the outputs of tests, or leave them out (load)",
}


def recorder() -> argparse.ArgumentParser:
    """Return a parser as that of the built program, which reads its words itself."""
    parser = argparse.ArgumentParser(prog="rezovamy", description=RECORDER, add_help=False)
    parser.add_argument("--help", action="help", help="print how the program is used")
    parser.add_argument(
        "--version",
        action="version",
        version="",
        help="print the version of the program and of its formats",
    )
    commands = parser.add_subparsers(metavar="COMMAND")
    for command in causes.COMMANDS:
        does, operands = RECORDING[command]
        usage = " ".join(["rezovamy", command, *operands, "[OPTION VALUE].."])
        of_command = commands.add_parser(
            command, help=does, description=does, usage=usage, add_help=False
        )
        for operand in operands:
            of_command.add_argument(operand, metavar=operand, help=OPERANDS[operand])
        for option in causes.TAKEN[command]:
            add_option(of_command, option)
    return parser


def add_option(parser: argparse.ArgumentParser, option: str) -> None:
    """Let a command of the built program take an option, whose value is a word or a number."""
    words = [word for word in causes.OPTIONS[option].split(" or ") if word != BYTES]
    if words:
        parser.add_argument(option, metavar="VALUE", choices=words, help=OPTIONS[option])
    else:
        parser.add_argument(option, metavar="BYTES", help=OPTIONS[option])


def runs_program() -> Program:
    """Return the front end. Which of its commands take the words after `--` no parser knows."""
    program = program_of(cli.parser(), PROGRAM)
    commands = [
        dataclasses.replace(command, takes_rest=cli.module_of(command.name).TAKES_REST)
        for command in program.commands
    ]
    return dataclasses.replace(program, commands=tuple(commands))


def script_program(parser: argparse.ArgumentParser, name: str) -> Program:
    """Return a script, called by the name under which it is installed."""
    return program_of(parser, name, (parser.description or "").replace(f"front/{name}", name))


def programs() -> list[Program]:
    """Return the programs, in the order of their names."""
    return [
        script_program(junit_xml.words_parser(), "junit_xml"),
        program_of(recorder(), "rezovamy"),
        runs_program(),
        script_program(session_from_libtest.words_parser(), "session_from_libtest"),
    ]
