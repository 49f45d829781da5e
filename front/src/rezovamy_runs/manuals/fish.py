"""The completion of a program for fish."""

from __future__ import annotations

from collections.abc import Sequence

from rezovamy_runs.manuals.tables import Kind, Option, Program

LIST_RUNS = "(echo last; rezovamy-runs list 2>/dev/null | awk 'NR > 1 {print $1}')"


def quoted(text: str) -> str:
    """Return a text in single quotes."""
    return "'" + text.replace("\\", "\\\\").replace("'", "\\'") + "'"


def offered(kind: Kind, choices: Sequence[str]) -> str:
    """Return the options of `complete` that offer what a value can be."""
    match kind:
        case Kind.WORDS:
            return f" -xa {quoted(' '.join(choices))}"
        case Kind.FILE:
            return " -rF"
        case Kind.RUN:
            return f" -xa {quoted(LIST_RUNS)}"
        case Kind.NOTHING:
            return " -x"


def option_line(option: Option, start: str) -> str:
    """Return the line of an option."""
    names = "".join(
        f" -l {name[2:]}" if name.startswith("--") else f" -s {name[1:]}" for name in option.names
    )
    value = offered(option.kind, option.choices) if option.value else ""
    return f"{start}{names}{value} -d {quoted(option.help)}"


def operand_lines(program: Program, start: str) -> list[str]:
    """Return the lines that say what the operands can be: the ids of runs and files."""
    lines = []
    if Kind.RUN in program.kinds:
        lines.append(f"{start} -a {quoted(LIST_RUNS)}")
    if Kind.RUN in program.kinds or Kind.FILE in program.kinds or program.takes_rest:
        lines.append(f"{start} -F")
    return lines


def word_lines(program: Program, start: str) -> list[str]:
    """Return the lines of the options and the operands of a program or a command."""
    options = [option_line(option, start) for option in program.options]
    return options + operand_lines(program, start)


def completion(program: Program) -> str:
    """Return the whole file."""
    start = f"complete -c {program.name}"
    lines = [f"# Completes {program.name} in fish. Made of its --help.", f"{start} -f"]
    alone = f"{start} -n __fish_use_subcommand" if program.commands else start
    lines += word_lines(program, alone)
    for command in program.commands:
        lines.append(f"{alone} -a {command.name} -d {quoted(command.about)}")
        lines += word_lines(command, f"{start} -n '__fish_seen_subcommand_from {command.name}'")
    return "\n".join(lines) + "\n"
