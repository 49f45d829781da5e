"""What is installed and packed runs by itself: in an empty folder, with nothing of this clone."""

from __future__ import annotations

import dataclasses
import os
import pathlib
import re
import shutil
import subprocess
import sys
from collections.abc import Mapping, Sequence

import pytest

from tests import EXAMPLES, FRONT

LINES = EXAMPLES / "sums.libtest.json"
SCRIPTS = ("install.sh", "package.sh")
PROGRAMS = ["junit_xml", "rezovamy", "rezovamy-runs", "session_from_libtest"]
SHARED = ["bash-completion", "doc", "fish", "licenses", "man", "zsh"]
PACKED = ["LICENSE-APACHE", "LICENSE-MIT", "README", "SHA256SUMS", "bin", "lib", "share"]


def called(
    words: Sequence[str | pathlib.Path],
    env: Mapping[str, str] | None = None,
    cwd: pathlib.Path | None = None,
    data: bytes = b"",
) -> subprocess.CompletedProcess[bytes]:
    """Return what came of a program."""
    return subprocess.run(
        words, input=data, env=env, cwd=cwd, capture_output=True, check=False, timeout=100
    )


# Each fault is one line, and no file is left.


@pytest.mark.parametrize("script", SCRIPTS)
@pytest.mark.parametrize("words", [(), ("",), ("--help",), ("a", "b")], ids=" ".join)
def test_wrong_words_are_refused(script: str, words: tuple[str, ...]) -> None:
    done = called([FRONT / script, *words])
    assert (done.returncode, done.stdout) == (2, b"")
    fault = rf"{script}: (?:a folder is wanted, as in|'.*' is no folder:) front/.*\n"
    assert re.fullmatch(fault, done.stderr.decode())


@pytest.mark.parametrize("script", SCRIPTS)
def test_a_missing_program_is_told(script: str, tmp_path: pathlib.Path) -> None:
    missing = f"{tmp_path}/none"
    done = called([FRONT / script, tmp_path / "to"], {**os.environ, "REZOVAMY": missing})
    build = "build it with (cd crates/rezovamy && rt run), or name it in REZOVAMY"
    said = f"{script}: no program is at {missing}: {build}\n"
    assert (done.returncode, done.stderr.decode()) == (1, said)
    assert os.listdir(tmp_path) == []


@dataclasses.dataclass(frozen=True)
class Machine:
    """A folder with nothing but Python, in which programs are installed and run."""

    folder: pathlib.Path
    program: pathlib.Path

    def make(self, script: str, to: pathlib.Path) -> str:
        """Return what a script prints that installs or packs the program."""
        done = called([FRONT / script, to], {**os.environ, "REZOVAMY": str(self.program)})
        assert (done.returncode, done.stderr) == (0, b"")
        return done.stdout.decode()

    def run(self, prefix: pathlib.Path, *words: str, data: bytes = b"") -> bytes:
        """Return what an installed program prints; its path has nothing but it and Python."""
        path = f"{prefix}/bin:{self.folder}/own"
        env = {
            "PATH": path,
            "HOME": str(self.folder),
            "REZOVAMY_RUNS": str(self.folder / "runs"),
            "PYTHONDONTWRITEBYTECODE": "1",
        }
        program = shutil.which(words[0], path=path)
        assert program is not None
        done = called([program, *words[1:]], env, self.folder / "work", data)
        assert (done.returncode, b"Traceback" in done.stderr) == (0, False), (words, done.stderr)
        return done.stdout


@pytest.fixture
def machine(tmp_path: pathlib.Path, program: pathlib.Path) -> Machine:
    """Return a machine on which nothing is installed."""
    (tmp_path / "own").mkdir()
    (tmp_path / "own/python3").symlink_to(os.path.realpath(sys.executable))
    (tmp_path / "work").mkdir()
    return Machine(tmp_path, program)


def try_programs(machine: Machine, prefix: pathlib.Path) -> None:
    """Try each program, from the lines of a run to its XML."""
    assert machine.run(prefix, "rezovamy", "--version").startswith(b"rezovamy ")
    words = ["session_from_libtest", "--no-clock", "--status", "101"]
    session = machine.run(prefix, *words, data=LINES.read_bytes())
    assert session == LINES.with_name("sums.session").read_bytes()
    machine.run(prefix, "rezovamy", "record", "sums.bundle", data=session)
    bundle = (machine.folder / "work/sums.bundle").read_bytes()
    reports = machine.run(prefix, "rezovamy", "report", data=bundle)
    words = ["junit_xml", "--events", "sums.bundle", "-", "junit"]
    assert machine.run(prefix, *words, data=reports) == b"junit/junit.xml\n"
    try_front_end(machine, prefix)


def try_front_end(machine: Machine, prefix: pathlib.Path) -> None:
    """Try some commands of `rezovamy-runs` on the bundle that is there."""
    assert b"usage: rezovamy-runs " in machine.run(prefix, "rezovamy-runs", "--help")
    shown = machine.run(prefix, "rezovamy-runs", "show", "sums.bundle")
    assert b"expects_a_product" in shown
    assert b'"traceEvents"' in machine.run(prefix, "rezovamy-runs", "trace", "sums.bundle")
    page = machine.run(prefix, "rezovamy-runs", "page", "sums.bundle", "--to", "-")
    assert page.startswith(b"<!DOCTYPE html>")
    written = machine.run(prefix, "rezovamy-runs", "junit", "sums.bundle", "--to", "xml")
    assert written == b"xml/junit.xml\n"
    words = ("explain", "UnknownOption", "at=1", "--", "info", "sums.bundle")
    said = machine.run(prefix, "rezovamy-runs", *words)
    assert said == b"`info` reads standard input: rezovamy info < sums.bundle\n"


@pytest.mark.program
def test_an_installation_runs_wherever_it_is_moved(machine: Machine) -> None:
    prefix, moved = machine.folder / "a prefix", machine.folder / "moved"
    said = machine.make("install.sh", prefix)
    programs = "rezovamy, rezovamy-runs, session_from_libtest and junit_xml"
    assert said.splitlines()[0] == f"{prefix}/bin has {programs}"
    machine.make("install.sh", prefix)
    prefix.rename(moved)
    assert sorted(os.listdir(moved / "bin")) == PROGRAMS
    assert os.listdir(moved / "lib") == ["rezovamy"]
    assert sorted(os.listdir(moved / "share")) == SHARED
    try_programs(machine, moved)


@pytest.mark.program
def test_an_installation_takes_the_place_of_an_older_one(machine: Machine) -> None:
    older = machine.folder / "prefix/lib/rezovamy"
    older.mkdir(parents=True)
    (older / "junit_xml.py").touch()
    machine.make("install.sh", machine.folder / "prefix")
    starters = ["junit_xml", "rezovamy", "rezovamy-runs", "session_from_libtest", "src"]
    assert sorted(os.listdir(older)) == starters
    assert os.listdir(older / "src") == ["rezovamy_runs"]
    assert list(older.rglob("__pycache__")) == []
    assert list(older.parent.parent.rglob(".rezovamy.*")) == []


@pytest.mark.program
def test_a_package_runs_where_it_is_unpacked(machine: Machine) -> None:
    path = pathlib.Path(machine.make("package.sh", machine.folder / "out").rstrip("\n"))
    assert re.fullmatch(r"rezovamy-\d+\.\d+\.\d+-\w+-\w+\.tar\.gz", path.name)
    assert sorted(os.listdir(path.parent)) == [path.name, f"{path.name}.sha256"]
    assert called(check_sums(f"{path.name}.sha256"), cwd=path.parent).returncode == 0
    (machine.folder / "there").mkdir()
    assert called(["tar", "-xf", path], cwd=machine.folder / "there").returncode == 0
    (unpacked,) = (machine.folder / "there").iterdir()
    assert sorted(os.listdir(unpacked)) == PACKED
    try_programs(machine, unpacked)
    assert called(check_sums("SHA256SUMS"), cwd=unpacked).returncode == 0
    assert set(summed_files(unpacked)) == files_of(unpacked) - {"./SHA256SUMS"}
    assert re.search(r"^Rezovamy \d", (unpacked / "README").read_text())


def check_sums(file: str) -> list[str]:
    """Return the words that check the files of which a file has the sums."""
    return ["sha256sum", "--quiet", "-c", file]


def summed_files(folder: pathlib.Path) -> list[str]:
    """Return the files whose sums a package has."""
    lines = (folder / "SHA256SUMS").read_text().splitlines()
    return [line.split("  ", 1)[1] for line in lines]


def files_of(folder: pathlib.Path) -> set[str]:
    """Return the files of a folder, without links."""
    files = (path for path in folder.rglob("*") if path.is_file() and not path.is_symlink())
    return {f"./{path.relative_to(folder)}" for path in files}
