"""The jobs of docs/CI.md: bash reads their scripts, and the front end takes their words."""

from __future__ import annotations

import re
import shlex
import subprocess

import pytest

from rezovamy_runs import cli
from tests import TOP

JOBS = re.findall(r"^```yaml\n(.*?)^```$", (TOP / "docs/CI.md").read_text(), re.M | re.S)
BLOCK = re.compile(r"( *)(?:- )?(?:run: )?\|")
PROGRAMS = r"rezovamy-runs|\.rezovamy/\$|front|cd|export|mkdir|\(cd|echo"
LINE = re.compile(rf" *(?:- )*(?:run: |- )((?:{PROGRAMS}).*)")
# What a CI puts into a script before a shell reads it.
PUT_IN = re.compile(r"\$\{\{.*?\}\}")


def indented_block(rows: list[str]) -> str:
    """Return the rows that are as far from the edge as the first one, up to another one."""
    depth = len(rows[0]) - len(rows[0].lstrip())
    ends = (at for at, row in enumerate(rows) if row.strip() and not row.startswith(" " * depth))
    return "\n".join(row[depth:] for row in rows[: next(ends, len(rows))])


def scripts(job: str) -> list[str]:
    """Return the scripts of a job: blocks after `|`, and single lines after `run:` or `- `."""
    rows, found = job.splitlines(), []
    for number, row in enumerate(rows):
        line = LINE.fullmatch(row)
        if BLOCK.fullmatch(row):
            found.append(indented_block(rows[number + 1 :]))
        elif line:
            found.append(line[1])
    return found


SCRIPTS = [script for job in JOBS for script in scripts(job)]


def asked(script: str) -> list[str]:
    """Return the words of a script that the front end gets, for each time that it is started."""
    return re.findall(r"rezovamy-runs ([a-z][^;\n]*)", script)


def test_there_are_two_pipelines_and_a_job() -> None:
    assert [len(scripts(job)) for job in JOBS] == [4, 11, 3]


@pytest.mark.parametrize("script", SCRIPTS)
def test_bash_reads_each_script(script: str) -> None:
    words = ["bash", "-n", "-c", PUT_IN.sub("x", script)]
    done = subprocess.run(words, capture_output=True, check=False)
    assert (done.returncode, done.stderr) == (0, b"")


def test_the_front_end_is_asked_for_these() -> None:
    report = [
        "import shards",
        "prune --keep 400 --yes",
        'junit "$GROUP" --to report',
        'page "$GROUP" --to report/page.html',
    ]
    assert [without_target(words) for script in SCRIPTS for words in asked(script)] == [
        'test --group "$GROUP" --shard ${{ matrix.shard }}/4 -- --workspace',
        *report,
        "compare --markdown",
        "flaky --markdown",
        'test --group "$GROUP" -- --workspace',
        *report,
        "compare --markdown",
        "flaky --markdown",
    ]


def without_target(words: str) -> str:
    """Return words without the file to which a shell writes what is printed."""
    return words.partition(" >")[0]


@pytest.mark.parametrize("words", sorted({words for one in SCRIPTS for words in asked(one)}))
def test_the_front_end_takes_their_words(words: str) -> None:
    known = PUT_IN.sub("1", without_target(words))
    cli.parser().parse_args(shlex.split(known.partition(" -- ")[0]))
