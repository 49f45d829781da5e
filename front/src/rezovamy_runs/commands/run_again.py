#!/usr/bin/env python3
"""Prints the command lines of cargo that run the tests of a run again which haven't passed.

    rezovamy rerun < run.bundle | front/run_again
    rezovamy rerun < run.bundle | front/run_again -- --release | sh

The input is what the command `rerun` of the program prints. For each test binary with tests that
are to be run, a line runs exactly these, as `cargo test -p sums --test wrong -- --exact panics`.
What stands after `--` are further words of `cargo test`, and after another `--` words of the test
binaries. All doctests of a library run if one is to run, as cargo takes no names of them, and a
target without libtest runs whole. What else can't be run alone is said on standard error.

Status 0: the lines were printed; there is none where all tests have passed. 1: the input isn't what
`rerun` prints, or something can't be read or written. 2: the options are wrong. 3: the lines were
printed, and a failed build or run of cargo itself, or a binary that cargo can't have named so, has
no line: all tests have to run again. Nothing of this is proved.
"""

from __future__ import annotations

import shlex
import sys

from rezovamy_runs import formatting
from rezovamy_runs.command_line import command_line, input_stream, print_out, say
from rezovamy_runs.runner import rerun_plan
from rezovamy_runs.runner.rerun_plan import Plan

PROGRAM = "run_again"
UNREADABLE, NAMELESS = 1, 3


def shell_lines(plan: Plan, given: list[str]) -> list[str]:
    """Return the lines for a shell, with the words of cargo that are given besides."""
    has_toolchain = bool(given) and given[0].startswith("+")
    toolchain, given = (given[:1], given[1:]) if has_toolchain else ([], given)
    return [
        shlex.join(["cargo", *toolchain, "test", *chosen.words(given)])
        for chosen in rerun_plan.selections(plan)
    ]


def main() -> int:
    """Print the lines of the plan on standard input, and return the status."""
    words, given = sys.argv[1:], []
    if "--" in words:
        place = words.index("--")
        words, given = words[:place], words[place + 1 :]
    parser = command_line(__doc__)
    parser.usage = "run_again [-h] [-- WORDS OF CARGO TEST]"
    parser.parse_args(words)
    try:
        plan = rerun_plan.read(input_stream().read().decode("utf-8", "surrogateescape"))
        for remark in rerun_plan.remarks(plan):
            say(f"{PROGRAM}: {formatting.name(remark)}")
        print_out("".join(f"{line}\n" for line in shell_lines(plan, given)))
    except rerun_plan.NoPlan as fault:
        say(f"{PROGRAM}: the input isn't what `rezovamy rerun` prints: {fault}")
        return UNREADABLE
    except OSError as error:
        say(f"{PROGRAM}: {error}")
        return UNREADABLE
    return NAMELESS if rerun_plan.is_nameless(plan) else 0


if __name__ == "__main__":
    sys.exit(main())
