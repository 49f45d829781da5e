"""The completion of a program for zsh."""

from __future__ import annotations

from collections.abc import Sequence

from rezovamy_runs.manuals.tables import Kind, Operand, Option, Program

LIST_RUNS = """\
    local -a ids
    ids=(last ${(f)"$(rezovamy-runs list 2>/dev/null | awk 'NR > 1 {print $1}')"})
    compadd -a ids
    _files"""
FIRST_WORD = """\
    )
    if (( CURRENT == 2 )); then
        _describe -t commands command commands"""
FURTHER_WORDS = """\
        return
    fi
    local command=$words[2]
    shift words
    (( CURRENT-- ))
    case $command in"""


def quoted(text: str) -> str:
    """Return a text in single quotes."""
    return "'" + text.replace("'", "'\\''") + "'"


def plain(text: str) -> str:
    """Return a text in which no letter means something to `_arguments`."""
    return "".join("\\" + letter if letter in "[]:\\" else letter for letter in text)


def offered(kind: Kind, choices: Sequence[str], runs: str) -> str:
    """Return the action that offers what a value can be."""
    match kind:
        case Kind.WORDS:
            return f"({' '.join(choices)})"
        case Kind.FILE:
            return "_files"
        case Kind.RUN:
            return runs
        case Kind.NOTHING:
            return ""


def option_words(option: Option, runs: str) -> list[str]:
    """Return the specifications of an option, one for each of its words."""
    value = ""
    if option.value:
        value = f":{plain(option.value)}:{offered(option.kind, option.choices, runs)}"
    apart = f"({' '.join(option.names)})" if len(option.names) > 1 else ""
    return [quoted(f"{apart}{name}[{plain(option.help)}]{value}") for name in option.names]


def stands_often(operand: Operand) -> bool:
    """Return whether more than one word may be of an operand."""
    return operand.often in ("*", "+")


def operand_word(number: int, operand: Operand, runs: str) -> str:
    """Return the specification of an operand, which stands at a place."""
    place = "*" if stands_often(operand) else f"{number}:" if operand.often == "?" else f"{number}"
    offers = offered(operand.kind, operand.choices, runs)
    return quoted(f"{place}:{plain(operand.value)}:{offers}")


def rest_words(program: Program) -> list[str]:
    """Return the specification of the words after `--`, where nothing else takes them."""
    is_offered = program.takes_rest and not any(map(stands_often, program.operands))
    return [quoted("*::word:_files")] if is_offered else []


def arguments(program: Program, runs: str, indent: str) -> list[str]:
    """Return the call that completes the words of a program or a command."""
    words = [word for option in program.options for word in option_words(option, runs)]
    words += [operand_word(*place, runs) for place in enumerate(program.operands, 1)]
    words += rest_words(program)
    return [
        f"{indent}_arguments \\",
        *(f"{indent}    {word} \\" for word in words[:-1]),
        f"{indent}    {words[-1]}",
    ]


def with_commands(program: Program, runs: str) -> list[str]:
    """Return the lines that complete a command, and then its words."""
    lines = ["    local -a commands", "    commands=("]
    for command in program.commands:
        lines.append(f"        {quoted(plain(command.name) + ':' + plain(command.about))}")
    lines += [FIRST_WORD, *arguments(program, runs, "        "), FURTHER_WORDS]
    for command in program.commands:
        lines += [f"    {command.name})", *arguments(command, runs, "        "), "        ;;"]
    return [*lines, "    esac"]


def completion(program: Program) -> str:
    """Return the whole file."""
    runs = f"{program.function}_run"
    lines = [f"#compdef {program.name}", f"# Completes {program.name} in zsh. Made of its --help."]
    if any(Kind.RUN in command.kinds for command in program.commands):
        lines += [f"{runs}() {{", LIST_RUNS, "}"]
    lines.append(f"{program.function}() {{")
    lines += with_commands(program, runs) if program.commands else arguments(program, runs, "    ")
    return "\n".join([*lines, "}", f'{program.function} "$@"']) + "\n"
