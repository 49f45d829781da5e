"""Holds XML files against schemas, by `xmllint` of libxml2.

`junit.xsd` is this repository's own. `junit-10.xsd` is the one against which the xUnit plugin of
Jenkins holds files: its file
src/main/resources/org/jenkinsci/plugins/xunit/types/model/xsd/junit-10.xsd, of its repository's
commit ae25da5089d4f94ac6c4669bf736e4d416cc4665, under the MIT licence that stands in it. It was
taken unchanged from Debian's source package python-xmlrunner 3.2.0-2.
"""

from __future__ import annotations

import pathlib
import shutil
import subprocess

HERE = pathlib.Path(__file__).resolve().parent
SCHEMAS = {"jenkins": ("junit.xsd", "junit-10.xsd"), "nextest": ("junit.xsd",)}


def is_there() -> bool:
    """Return whether files can be held against schemas here."""
    return shutil.which("xmllint") is not None


def faults(paths: list[pathlib.Path], dialect: str = "jenkins") -> list[str]:
    """Return what is wrong with files in a dialect; nothing where no `xmllint` is there."""
    found: list[str] = []
    for schema in SCHEMAS[dialect] if is_there() and paths else ():
        words: list[str | pathlib.Path] = ["xmllint", "--noout", "--nonet", "--schema"]
        words += [HERE / "schemas" / schema, *paths]
        done = subprocess.run(words, capture_output=True, check=False)
        if done.returncode != 0:
            found += done.stderr.decode("utf-8", "replace").splitlines()
    return found
