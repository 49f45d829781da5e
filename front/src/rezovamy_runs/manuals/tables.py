"""What a program takes, read out of its parser: its options, its operands and its commands."""

from __future__ import annotations

import argparse
import dataclasses
import enum

FILES = ("FILE", "PATH", "FOLDER", "BUNDLE", "REPORTS")
RUNS = ("RUN", "A", "B")
USAGES = {"?": "[{0}]", "*": "[{0} ...]", "+": "{0} [{0} ...]"}


class Kind(enum.Enum):
    """How a value is completed."""

    # By words that are known.
    WORDS = enum.auto()
    FILE = enum.auto()
    # By the ids of runs, or the paths of bundles.
    RUN = enum.auto()
    NOTHING = enum.auto()


def kind_of(value: str, choices: tuple[str, ...]) -> Kind:
    """Return how a value is completed that has this name and these choices."""
    if choices:
        return Kind.WORDS
    if value in FILES:
        return Kind.FILE
    return Kind.RUN if value in RUNS else Kind.NOTHING


@dataclasses.dataclass(frozen=True)
class Option:
    """An option: its words, what its value is called, the words that this can be, and its help.

    Where it has no value, the name of that is empty.
    """

    names: tuple[str, ...]
    value: str
    choices: tuple[str, ...]
    help: str

    @property
    def kind(self) -> Kind:
        """How its value is completed."""
        return kind_of(self.value, self.choices)


@dataclasses.dataclass(frozen=True)
class Operand:
    """A word without a name: what it is called, how often it stands, and its help.

    How often it stands is told as argparse does.
    """

    value: str
    often: str
    choices: tuple[str, ...]
    help: str

    @property
    def kind(self) -> Kind:
        """How it is completed."""
        return kind_of(self.value, self.choices)

    @property
    def usage(self) -> str:
        """The operand as a synopsis has it."""
        return USAGES.get(self.often, "{0}").format(self.value)


@dataclasses.dataclass(frozen=True)
class Program:
    """A program, or one of its commands."""

    name: str
    about: str
    options: tuple[Option, ...]
    operands: tuple[Operand, ...]
    commands: tuple[Program, ...] = ()
    takes_rest: bool = False
    usage: str = ""

    @property
    def function(self) -> str:
        """The name as one that a function of a shell can have."""
        return "_" + self.name.replace("-", "_")

    @property
    def kinds(self) -> list[Kind]:
        """How the operands are completed."""
        return [operand.kind for operand in self.operands]


def help_of(parser: argparse.ArgumentParser, action: argparse.Action) -> str:
    """Return the help of an action in one line, with its default put in."""
    if not action.help:
        return ""
    return " ".join(parser._get_formatter()._expand_help(action).split())


def choices_of(action: argparse.Action) -> tuple[str, ...]:
    """Return the words that an action takes, none where it takes all."""
    return tuple(map(str, action.choices or ()))


def option_of(parser: argparse.ArgumentParser, action: argparse.Action) -> Option:
    """Return the option of an action."""
    called = str(action.metavar or action.dest.upper().replace("_", "-"))
    value = "" if action.nargs == 0 else called
    names = tuple(action.option_strings)
    return Option(names, value, choices_of(action), help_of(parser, action))


def operand_of(parser: argparse.ArgumentParser, action: argparse.Action) -> Operand:
    """Return the operand of an action."""
    value = str(action.metavar or action.dest)
    often = "" if action.nargs is None else str(action.nargs)
    return Operand(value, often, choices_of(action), help_of(parser, action))


def commands_of(
    action: argparse._SubParsersAction[argparse.ArgumentParser],
) -> tuple[Program, ...]:
    """Return the commands that a parser has below it, with their helps."""
    helps = {choice.dest: choice.help or "" for choice in action._choices_actions}
    return tuple(
        program_of(parser, name, helps.get(name, "")) for name, parser in action.choices.items()
    )


def program_of(parser: argparse.ArgumentParser, name: str, about: str | None = None) -> Program:
    """Return the program whose words a parser reads. What an action hides stays hidden."""
    options: list[Option] = []
    operands: list[Operand] = []
    commands: tuple[Program, ...] = ()
    for action in parser._actions:
        if action.help == argparse.SUPPRESS:
            continue
        if isinstance(action, argparse._SubParsersAction):
            commands = commands_of(action)
        elif action.option_strings:
            options.append(option_of(parser, action))
        else:
            operands.append(operand_of(parser, action))
    text = parser.description or "" if about is None else about
    return Program(name, text, tuple(options), tuple(operands), commands, usage=parser.usage or "")
