"""The completion of a program for bash."""

from __future__ import annotations

from collections.abc import Sequence

from rezovamy_runs.manuals.tables import Kind, Program

BEGIN = """\
    local word="${COMP_WORDS[COMP_CWORD]}" before="${COMP_WORDS[COMP_CWORD - 1]}"
    local command="_" options="" words="" runs="" files=""
    COMPREPLY=()"""
COMMAND = '    if [ "$COMP_CWORD" -gt 1 ]; then command="${COMP_WORDS[1]}"; fi'
RUNS = "last $(rezovamy-runs list 2>/dev/null | awk 'NR > 1 {print $1}')"
OFFER = f"""\
    if [[ "$word" == -* ]] || [ -z "$words$runs$files" ]; \
then words="$options" runs="" files=""; fi
    if [ -n "$runs" ]; then words="{RUNS}"; fi
    mapfile -t COMPREPLY < <(compgen -W "$words" -- "$word"; \
[ -z "$files" ] || compgen -f -- "$word")"""


def offered(kinds: Sequence[Kind], words: Sequence[str] = ()) -> str:
    """Return what the next word can be, as assignments."""
    found = {
        "words": " ".join(words),
        "runs": "yes" if Kind.RUN in kinds else "",
        "files": "yes" if {Kind.RUN, Kind.FILE} & set(kinds) else "",
    }
    return " ".join(f'{name}="{value}"' for name, value in found.items() if value)


def values_of(program: Program, command: str) -> list[str]:
    """Return the cases of options whose value is being typed."""
    lines = []
    for option in program.options:
        if option.value:
            cases = " | ".join(f"{command}:{name}" for name in option.names)
            offers = offered([option.kind], option.choices)
            lines.append(f"    {cases}) {offers} ;;" if offers else f"    {cases}) return ;;")
    return lines


def words_of(program: Program, command: str) -> str:
    """Return the case of a command: its options, its commands, and what its operands can be."""
    options = " ".join(name for option in program.options for name in option.names)
    kinds = program.kinds + [Kind.FILE] * program.takes_rest
    offers = offered(kinds, [below.name for below in program.commands])
    return f'    {command}:*) options="{options}"{" " * bool(offers)}{offers} ;;'


def completion(program: Program) -> str:
    """Return the whole file."""
    parts = [(program, "_")] + [(command, command.name) for command in program.commands]
    lines = [
        f"# Completes {program.name} in bash. Made of its --help.",
        f"{program.function}() {{",
        BEGIN,
        *([COMMAND] if program.commands else []),
        '    case "$command:$before" in',
        *(line for part, name in parts for line in values_of(part, name)),
        *(words_of(part, name) for part, name in parts),
        "    esac",
        OFFER,
        "}",
        f"complete -o filenames -F {program.function} {program.name}",
    ]
    return "\n".join(lines) + "\n"
