"""Finds the program that the user has cargo call in place of a test binary."""

from __future__ import annotations

import json
import os
import pathlib
import re
import tomllib
from collections.abc import Sequence
from subprocess import CalledProcessError as Failed

from rezovamy_runs import cargo, formatting
from rezovamy_runs.collecting import cfg
from rezovamy_runs.collecting.cargo_call import CargoWords, Runner
from rezovamy_runs.faults.fault import Fault
from rezovamy_runs.json_values import JsonObject


class Configuration:
    """Cargo's configuration, with that of its words and of the environment."""

    def __init__(self, words: CargoWords) -> None:
        self._words = words
        try:
            self._text = cargo.configuration(words.toolchain, words.configurations())
        except cargo.FAULTS:
            # A cargo that has no such command, or a fault that cargo itself will tell.
            self._text = ""
        self._values = tomllib.loads(self._text)

    def _table(self, name: str) -> JsonObject:
        found = self._values.get(name)
        return found if isinstance(found, dict) else {}

    def triples(self) -> list[str]:
        """Return the targets that are built."""
        asked = self._words.values("--target")
        given = asked or os.environ.get("CARGO_BUILD_TARGET") or self._table("build").get("target")
        named = [given] if isinstance(given, str) else given
        if isinstance(named, list) and named:
            return [pathlib.PurePath(str(one)).name.removesuffix(".json") for one in named]
        return [host(self._words.toolchain)]

    def rustdoc(self) -> str:
        """Return the program that cargo calls as rustdoc."""
        return str(os.environ.get("RUSTDOC") or self._table("build").get("rustdoc") or "rustdoc")

    def runners(self) -> dict[str, Runner]:
        """Return the user's runner for each target that is built; it may have no words."""
        return {triple: self._runner(triple) for triple in self.triples()}

    def _runner(self, triple: str) -> Runner:
        """Return the user's runner for a target.

        As in cargo, one for the triple comes first, by the environment before the files.
        """
        own = self._in_files(triple)
        variable = f"CARGO_TARGET_{triple.upper().replace('-', '_')}_RUNNER"
        by_variable = os.environ.get(variable)
        if by_variable and not (own and self._origin(triple).startswith("--config")):
            return Runner(tuple(by_variable.split()), own.is_text if own else False)
        if own:
            return own
        names = [name for name in self._table("target") if name.startswith("cfg(")]
        settings = self._settings(triple) if names else []
        found = [self._in_files(name) for name in names if cfg.matches(name, settings)]
        # Of several, cargo itself says that it can't take them.
        words = next((one.words for one in found if one), ())
        return Runner(words, False)

    def _settings(self, triple: str) -> list[str]:
        """Return the settings of a target, none where the compiler can't be asked."""
        compiler = os.environ.get("RUSTC") or self._table("build").get("rustc")
        rustc = [str(compiler)] if compiler else ["rustc", *self._words.toolchain]
        try:
            return cargo.settings_of(rustc, triple)
        except cargo.FAULTS:
            return []

    def _in_files(self, name: str) -> Runner | None:
        """Return the runner in the table of a triple or of a `cfg`, None where it has none."""
        table = self._table("target").get(name)
        value = table.get("runner") if isinstance(table, dict) else None
        if isinstance(value, str):
            words = value.split()
        elif isinstance(value, list):
            words = [str(one) for one in value]
        else:
            return None
        return Runner(tuple([self._path(name, words[0]), *words[1:]]), isinstance(value, str))

    def _path(self, name: str, program: str) -> str:
        """Return the path of a runner: one with a slash is in the folder above its file's."""
        origin = pathlib.Path(self._origin(name))
        if "/" not in program or not origin.is_absolute():
            return program
        return str(origin.parent.parent / program)

    def _origin(self, name: str) -> str:
        """Return where a table has its runner from: a path, or what cargo says of it."""
        keys = "|".join(re.escape(spelled) for spelled in (name, json.dumps(name)))
        lines = self._text.splitlines()
        for place, line in enumerate(lines):
            if re.match(rf"target\.(?:{keys})\.runner = ", line):
                told = line if " # " in line else next(iter(lines[place + 1 :]), "")
                return told.rpartition(" # ")[2]
        return ""


def host(toolchain: Sequence[str]) -> str:
    """Return the triple of the host; it is a fault if cargo can't be asked."""
    try:
        return cargo.host(toolchain)
    except cargo.FAULTS as error:
        # Without a toolchain of this name, the error of cargo itself says more.
        said = error.stderr.decode("utf-8", "replace") if isinstance(error, Failed) else ""
        why = said.strip() or getattr(error, "strerror", None) or str(error)
        do = "install Rust, or put cargo on the path"
        raise Fault(f"cargo can't be run: {formatting.name(why)}; {do}") from error
