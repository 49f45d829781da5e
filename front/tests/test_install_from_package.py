"""The package of a clone: the same bytes wherever it is made, and what is installed from it."""

from __future__ import annotations

import hashlib
import io
import os
import pathlib
import platform
import shutil
import subprocess
import tarfile
from collections.abc import Mapping

import pytest

from tests import FRONT

NAME = f"rezovamy-0.0.1-linux-{platform.machine()}"
# What a program prints that stands for the built one, and what it is.
SAYS = "#!/bin/sh\necho '{}'\n"
FAILS = "#!/bin/sh\nexit 1\n"
PARTS = ("front", "docs", "LICENSE-MIT", "LICENSE-APACHE")
BUILD = "build it with (cd crates/rezovamy && rt run), or name it in REZOVAMY"


def copied(clone: pathlib.Path) -> pathlib.Path:
    """Make a folder with what a clone has for the front end."""
    top = FRONT.parent
    clone.mkdir()
    for part in PARTS:
        if (top / part).is_dir():
            shutil.copytree(top / part, clone / part)
        else:
            shutil.copyfile(top / part, clone / part)
    return clone


def run(
    clone: pathlib.Path,
    script: str,
    to: pathlib.Path,
    env: Mapping[str, str] | None = None,
    umask: int = 0o022,
) -> subprocess.CompletedProcess[str]:
    """Return what came of a script of a clone."""
    own = {name: value for name, value in os.environ.items() if name != "REZOVAMY"}
    return subprocess.run(
        [clone / "front" / script, to],
        env={**own, **(env or {})},
        umask=umask,
        capture_output=True,
        text=True,
        check=False,
        timeout=100,
    )


def put_package(clone: pathlib.Path, program: str) -> pathlib.Path:
    """Put a package with a program into a clone, and its checksum beside it."""
    (clone / "dist").mkdir()
    path = clone / "dist" / f"{NAME}.tar.gz"
    member = tarfile.TarInfo(f"{NAME}/bin/rezovamy")
    member.size, member.mode = len(program), 0o755
    with tarfile.open(path, "w:gz") as archive:
        archive.addfile(member, io.BytesIO(program.encode()))
    digest = hashlib.sha256(path.read_bytes()).hexdigest()
    path.with_name(f"{path.name}.sha256").write_text(f"{digest}  {path.name}\n")
    return path


def put_built(clone: pathlib.Path, program: str, seconds: int) -> None:
    """Put a program where a build of the clone puts it, so many seconds after the package."""
    path = clone / "crates/rezovamy/out/rezovamy"
    path.parent.mkdir(parents=True)
    path.write_text(program)
    path.chmod(0o755)
    (package,) = (clone / "dist").glob("*.tar.gz")
    instant = package.stat().st_mtime + seconds
    os.utime(path, (instant, instant))


def said_by_installed(prefix: pathlib.Path) -> str:
    """Return what the program prints that was installed."""
    return subprocess.run(
        [prefix / "bin/rezovamy"], capture_output=True, text=True, check=True, timeout=100
    ).stdout


@pytest.mark.program
def test_the_same_files_give_the_same_package(
    tmp_path: pathlib.Path, program: pathlib.Path
) -> None:
    first, second = copied(tmp_path / "first"), copied(tmp_path / "another second")
    for path in second.rglob("*"):
        if not path.is_symlink():
            os.utime(path, (1e9, 1e9))
    named = {"REZOVAMY": str(program)}
    other = {**named, "LC_ALL": "C.UTF-8", "TZ": "Asia/Tokyo", "SOURCE_DATE_EPOCH": "77"}
    made = [
        run(first, "package.sh", tmp_path / "a", named),
        run(second, "package.sh", tmp_path / "b", other, umask=0o077),
    ]
    assert [(done.returncode, done.stderr) for done in made] == [(0, "")] * 2
    assert pathlib.Path(made[0].stdout.strip()).stat().st_size < 1_000_000
    names = os.listdir(tmp_path / "a")
    assert len(names) == 2
    for name in names:
        assert (tmp_path / "a" / name).read_bytes() == (tmp_path / "b" / name).read_bytes()


def test_a_clone_with_a_package_needs_no_build(tmp_path: pathlib.Path) -> None:
    clone, prefix = copied(tmp_path / "clone"), tmp_path / "to"
    put_package(clone, SAYS.format("packed"))
    done = run(clone, "install.sh", prefix)
    programs = "rezovamy, rezovamy-runs, session_from_libtest and junit_xml"
    hint = f"put it on the path: PATH={prefix}/bin:$PATH"
    assert (done.returncode, done.stderr) == (0, "")
    assert done.stdout == f"{prefix}/bin has {programs}\n{hint}\n"
    assert said_by_installed(prefix) == "packed\n"


def test_nothing_is_said_of_a_path_that_has_the_folder(tmp_path: pathlib.Path) -> None:
    clone, prefix = copied(tmp_path / "clone"), tmp_path / "to"
    put_package(clone, SAYS.format("packed"))
    done = run(clone, "install.sh", prefix, {"PATH": f"{os.environ['PATH']}:{prefix}/bin"})
    assert len(done.stdout.splitlines()) == 1


@pytest.mark.parametrize(
    ("seconds", "named", "installed"),
    [(60, False, "built\n"), (-60, False, "packed\n"), (60, True, "named\n")],
    ids=["a newer build", "an older build", "a program that is named"],
)
def test_which_program_is_installed(
    tmp_path: pathlib.Path, seconds: int, named: bool, installed: str
) -> None:
    clone, prefix = copied(tmp_path / "clone"), tmp_path / "to"
    put_package(clone, SAYS.format("packed"))
    put_built(clone, SAYS.format("built"), seconds)
    other = tmp_path / "other"
    other.write_text(SAYS.format("named"))
    other.chmod(0o755)
    done = run(clone, "install.sh", prefix, {"REZOVAMY": str(other)} if named else {})
    assert (done.returncode, done.stderr) == (0, "")
    assert said_by_installed(prefix) == installed


def test_a_changed_package_is_not_installed(tmp_path: pathlib.Path) -> None:
    clone, prefix = copied(tmp_path / "clone"), tmp_path / "to"
    package = put_package(clone, SAYS.format("packed"))
    package.write_bytes(package.read_bytes()[:-1] + b"\1")
    done = run(clone, "install.sh", prefix)
    said = f"{package} isn't as it was made: get it again with git checkout HEAD -- dist"
    assert (done.returncode, done.stdout, done.stderr) == (1, "", f"install.sh: {said}\n")
    assert not prefix.exists()


def test_a_package_that_does_not_run_is_not_installed(tmp_path: pathlib.Path) -> None:
    clone, prefix = copied(tmp_path / "clone"), tmp_path / "to"
    package = put_package(clone, FAILS)
    done = run(clone, "install.sh", prefix)
    said = f"the program of {package} doesn't run on this system: {BUILD}"
    assert (done.returncode, done.stdout, done.stderr) == (1, "", f"install.sh: {said}\n")
    assert os.listdir(prefix / "bin") == os.listdir(prefix / "lib") == []


def test_a_package_of_another_system_is_not_installed(tmp_path: pathlib.Path) -> None:
    clone, prefix = copied(tmp_path / "clone"), tmp_path / "to"
    package = put_package(clone, SAYS.format("packed"))
    package.rename(package.with_name("rezovamy-0.0.1-linux-other.tar.gz"))
    done = run(clone, "install.sh", prefix)
    said = f"no program is at {clone}/crates/rezovamy/out/rezovamy: {BUILD}"
    assert (done.returncode, done.stdout, done.stderr) == (1, "", f"install.sh: {said}\n")
    assert not prefix.exists()
