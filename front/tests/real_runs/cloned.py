"""A clone in which the lines of pages run, as bash runs them."""

from __future__ import annotations

import dataclasses
import os
import pathlib
import re
import shutil
import subprocess

from tests import EXAMPLES, FRONT, TOP
from tests.real_runs.cargo_runs import BUILT

BLOCK = re.compile(r"^```sh\n(.*?)^```", re.M | re.S)
# The front end finds the program of the clone, and the folder of the runs in that for states.
LEFT_OUT = ("REZOVAMY", "REZOVAMY_RUNS")


@dataclasses.dataclass(frozen=True)
class Clone:
    """What the lines need of a clone, and a folder in place of `/tmp` and the user's folder."""

    folder: pathlib.Path
    made: pathlib.Path
    target: pathlib.Path

    def run(self, script: str, folder: str, status: int) -> str:
        """Return what a script prints in a folder of the clone, and see that it ends so."""
        left = {name: value for name, value in os.environ.items() if name not in LEFT_OUT}
        done = subprocess.run(
            ["bash", "-eo", "pipefail", "-c", self.here(script)],
            cwd=self.folder / folder,
            capture_output=True,
            text=True,
            check=False,
            env={
                **left,
                "PATH": f"{self.made}/.local/bin:{left['PATH']}",
                "CARGO_TARGET_DIR": str(self.target),
                "CARGO_NET_OFFLINE": "true",
            },
        )
        assert done.returncode == status, done.stderr
        return done.stdout

    def here(self, script: str) -> str:
        """Return a script with a folder of its own in place of `/tmp` and of the user's folder."""
        return script.replace("/tmp/", f"{self.made}/").replace("~/", f"{self.made}/")


def clone_in(folder: pathlib.Path, program: pathlib.Path) -> Clone:
    """Make a clone in which the examples, the front end, its pages and the program are there."""
    clone = Clone(folder / "clone", folder / "made", folder / "target")
    shutil.copytree(EXAMPLES, clone.folder / "examples", ignore=BUILT)
    unread = shutil.ignore_patterns("__pycache__", "tests")
    shutil.copytree(FRONT, clone.folder / "front", ignore=unread)
    shutil.copytree(TOP / "docs", clone.folder / "docs")
    for licence in TOP.glob("LICENSE-*"):
        shutil.copyfile(licence, clone.folder / licence.name)
    built = clone.folder / "crates/rezovamy/out/rezovamy"
    built.parent.mkdir(parents=True)
    built.symlink_to(program)
    clone.made.mkdir()
    return clone


def blocks_of(page: str) -> list[str]:
    """Return the blocks of a page that are lines for a shell."""
    return BLOCK.findall((TOP / page).read_text())


def block_of(page: str, *words: str) -> str:
    """Return the one block of a page that has these words."""
    (block,) = [block for block in blocks_of(page) if all(word in block for word in words)]
    return block
