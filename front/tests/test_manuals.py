"""Man pages and completions of a small program, typed by hand, and of those that are installed."""

from __future__ import annotations

import argparse
import dataclasses
import os
import pathlib
import shutil
import subprocess

import pytest

from rezovamy_runs.manuals import __main__ as manuals
from rezovamy_runs.manuals import bash, fish, manual, zsh
from rezovamy_runs.manuals.programs import programs
from rezovamy_runs.manuals.tables import Program, program_of

NAMES = ["junit_xml", "rezovamy", "rezovamy-runs", "session_from_libtest"]
# Lets bash complete the words that it gets by the completion in FILE.
COMPLETE = (
    'COMP_WORDS=("$@"); COMP_CWORD=$(( $# - 1 )); . "$FILE"; "_${1//-/_}"; '
    'printf "%s\\n" "${COMPREPLY[@]}"'
)


@pytest.fixture
def small() -> Program:
    """Return a program with two commands."""
    parser = argparse.ArgumentParser(
        prog="a-b", description="Does a\\b.\n\n    a-b x\n\n.Not a macro."
    )
    commands = parser.add_subparsers(metavar="COMMAND")
    show = commands.add_parser("show", help="show [it]", description="show [it]")
    show.add_argument("run", nargs="?", metavar="RUN", help="the run")
    show.add_argument(
        "--by", choices=("one", "two"), default="one", help="what's first (%(default)s)"
    )
    write = commands.add_parser("write", help="write it", description="write it", add_help=False)
    write.add_argument("file", metavar="FILE", help="the file")
    write.add_argument("-n", "--number", metavar="N", help="how many")
    program = program_of(parser, "a-b")
    shown, written = program.commands
    return dataclasses.replace(
        program, commands=(shown, dataclasses.replace(written, takes_rest=True))
    )


# A small program.


def test_a_page_begins_with_its_name_and_its_words(small: Program) -> None:
    assert manual.page(small).splitlines()[:7] == [
        '.TH A\\-B 1 "" Rezovamy Rezovamy',
        ".SH NAME",
        "a\\-b \\- does a\\eb",
        ".SH SYNOPSIS",
        ".nf",
        "a\\-b show [OPTION].. [RUN]",
        "a\\-b write [OPTION].. FILE [\\-\\- WORD ...]",
    ]


@pytest.mark.parametrize(
    "wanted",
    [
        ["    a\\-b x", ".fi", ".PP", "\\&.Not a macro."],
        [".TP", ".B \\-\\-by {one,two}", "what's first (one)"],
    ],
    ids=["description", "option"],
)
def test_a_page_has_rows(small: Program, wanted: list[str]) -> None:
    lines = manual.page(small).splitlines()
    assert wanted in [lines[at : at + len(wanted)] for at in range(len(lines))]


@pytest.mark.parametrize(
    "line",
    [
        'show:--by) words="one two" ;;',
        "write:-n | write:--number) return ;;",
        '_:*) options="-h --help" words="show write" ;;',
        'show:*) options="-h --help --by" runs="yes" files="yes" ;;',
        'write:*) options="-n --number" files="yes" ;;',
        "complete -o filenames -F _a_b a-b",
    ],
)
def test_bash(small: Program, line: str) -> None:
    assert line in [row.strip() for row in bash.completion(small).splitlines()]


@pytest.mark.parametrize(
    "line",
    [
        "#compdef a-b",
        "'show:show \\[it\\]'",
        "'--by[what'\\''s first (one)]:BY:(one two)'",
        "'1::RUN:_a_b_run'",
        "'(-n --number)--number[how many]:N:'",
        "'1:FILE:_files'",
        "'*::word:_files'",
    ],
)
def test_zsh(small: Program, line: str) -> None:
    assert line in [row.strip(" \\") for row in zsh.completion(small).splitlines()]


@pytest.mark.parametrize(
    "line",
    [
        "complete -c a-b -f",
        "complete -c a-b -n __fish_use_subcommand -a show -d 'show [it]'",
        "complete -c a-b -n '__fish_seen_subcommand_from show' -l by -xa 'one two'"
        " -d 'what\\'s first (one)'",
        "complete -c a-b -n '__fish_seen_subcommand_from write' -s n -l number -x -d 'how many'",
        "complete -c a-b -n '__fish_seen_subcommand_from write' -F",
    ],
)
def test_fish(small: Program, line: str) -> None:
    assert line in fish.completion(small).splitlines()


# The programs that are installed.


@pytest.fixture(scope="module")
def prefix(tmp_path_factory: pytest.TempPathFactory) -> pathlib.Path:
    """Return a folder that has the pages and the completions."""
    folder = tmp_path_factory.mktemp("prefix")
    manuals.write(folder)
    return folder


def test_the_programs_are_known() -> None:
    assert [program.name for program in programs()] == NAMES
    assert list(manual.PAGES) == NAMES


@pytest.mark.parametrize(
    ("folder", "form"),
    [
        ("man/man1", "{}.1"),
        ("bash-completion/completions", "{}"),
        ("zsh/site-functions", "_{}"),
        ("fish/vendor_completions.d", "{}.fish"),
    ],
)
def test_each_program_has_its_files(prefix: pathlib.Path, folder: str, form: str) -> None:
    files = sorted(os.listdir(prefix / "share" / folder))
    assert files == sorted(form.format(name) for name in NAMES)


@pytest.mark.parametrize(
    ("words", "offered"),
    [
        ("rezovamy re", ["record", "replay", "report", "rerun"]),
        ("rezovamy replay --output ", ["load", "skip"]),
        ("rezovamy record b --max-output ", []),
        ("rezovamy-runs expl", ["explain"]),
        ("rezovamy-runs explain --in", ["--input"]),
        ("rezovamy-runs show la", ["last"]),
        ("session_from_libtest --build-error t", ["test"]),
        ("junit_xml --events sh", ["share"]),
    ],
)
def test_bash_completes(prefix: pathlib.Path, words: str, offered: list[str]) -> None:
    typed = words.split(" ")
    file = prefix / "share/bash-completion/completions" / typed[0]
    done = subprocess.run(
        ["bash", "-c", COMPLETE, "bash", *typed],
        cwd=prefix,
        env={**os.environ, "FILE": str(file)},
        capture_output=True,
        check=True,
    )
    assert done.stdout.decode().split() == offered


@pytest.mark.parametrize("name", NAMES)
def test_a_page_names_no_file_of_a_clone(prefix: pathlib.Path, name: str) -> None:
    assert f"front/{name}" not in (prefix / f"share/man/man1/{name}.1").read_text()


@pytest.mark.skipif(shutil.which("groff") is None, reason="groff is missing")
@pytest.mark.parametrize("name", NAMES)
def test_groff_reads_a_page_without_a_warning(prefix: pathlib.Path, name: str) -> None:
    page = prefix / f"share/man/man1/{name}.1"
    words = ["groff", "-man", "-ww", "-Tutf8", str(page)]
    assert subprocess.run(words, capture_output=True, check=True).stderr == b""
