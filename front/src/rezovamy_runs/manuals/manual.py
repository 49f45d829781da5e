"""The man page of a program, in the language of roff."""

from __future__ import annotations

from rezovamy_runs.manuals.tables import Option, Program

PAGES = ("junit_xml", "rezovamy", "rezovamy-runs", "session_from_libtest")


def escaped(text: str) -> str:
    """Return a text as roff has it: no letter of it is a command."""
    text = text.replace("\\", "\\e").replace("-", "\\-")
    return "\\&" + text if text.startswith((".", "'")) else text


def first_line(about: str) -> str:
    """Return what a description says first, as the line of a NAME section has it."""
    line = about.strip().split("\n\n")[0].split("\n")[0].rstrip(".")
    return line[:1].lower() + line[1:]


def paragraphs(about: str) -> list[str]:
    """Return a description as roff: what is indented stays in its lines."""
    lines = []
    for paragraph in about.strip().split("\n\n"):
        rows = [row for row in paragraph.split("\n") if row.strip()]
        if all(row.startswith("    ") for row in rows):
            lines += [".PP", ".nf", *map(escaped, rows), ".fi"]
        else:
            lines += [".PP", *(escaped(row.strip()) for row in rows)]
    return lines


def names_of(option: Option) -> str:
    """Return the words of an option, with what its value is called."""
    value = "{" + ",".join(option.choices) + "}" if option.choices else option.value
    return ", ".join(option.names) + (f" {value}" if value else "")


def described(program: Program) -> list[str]:
    """Return the operands and options of a program or a command, each with its help."""
    lines = []
    for operand in program.operands:
        lines += [".TP", f".I {escaped(operand.value)}", escaped(operand.help or operand.value)]
    for option in program.options:
        lines += [".TP", f".B {escaped(names_of(option))}", escaped(option.help or option.value)]
    return lines


def synopsis(program: Program, before: str = "") -> list[str]:
    """Return the words of a program or a command, in a line, or in those of its own usage."""
    if program.usage:
        return [row.strip() for row in program.usage.splitlines()]
    words = [before + program.name] + (["[OPTION].."] if program.options else [])
    words += [operand.usage for operand in program.operands]
    return [" ".join(words + ["[-- WORD ...]"] * program.takes_rest)]


def page(program: Program) -> str:
    """Return the whole page."""
    name = escaped(program.name)
    rows = [row for command in program.commands for row in synopsis(command, f"{program.name} ")]
    lines = [
        f'.TH {escaped(program.name.upper())} 1 "" Rezovamy Rezovamy',
        ".SH NAME",
        f"{name} \\- {escaped(first_line(program.about))}",
        ".SH SYNOPSIS",
        ".nf",
        *map(escaped, rows or synopsis(program)),
        ".fi",
        ".SH DESCRIPTION",
        *paragraphs(program.about),
    ]
    for command in program.commands:
        lines += [f".SH {escaped(command.name.upper())}", escaped(command.about)]
        lines += described(command)
    lines += [".SH OPTIONS", *described(program), ".SH SEE ALSO"]
    lines.append(", ".join(f"{other}(1)" for other in PAGES if other != program.name))
    return "\n".join(lines) + "\n"
