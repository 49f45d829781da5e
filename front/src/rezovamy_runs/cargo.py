"""Asks cargo what it knows of a workspace, and how it is configured."""

from __future__ import annotations

import json
import os
import subprocess
from collections.abc import Sequence

from rezovamy_runs.json_values import Members, members_of

# What may come of asking: cargo isn't there, it refuses, or it prints something else.
FAULTS = (OSError, ValueError, LookupError, subprocess.CalledProcessError)
HOST = "host: "


def metadata(manifest_path: str | None = None) -> Members:
    """Return what `cargo metadata` prints of a manifest, or of that of the current folder."""
    words = ["metadata", "--no-deps", "--offline", "--format-version", "1"]
    words += ["--manifest-path", manifest_path] if manifest_path else []
    return members_of(json.loads(answer(words)))


def configuration(toolchain: Sequence[str], options: Sequence[str]) -> str:
    """Return the configuration as TOML, in which a comment says where each value comes from.

    `options` are words `--config VALUE`. Variables of the environment aren't in it.
    """
    words = [*toolchain, "-Z", "unstable-options", *options, "config", "get", "--show-origin"]
    return answer(words, {"RUSTC_BOOTSTRAP": "1"})


def host(toolchain: Sequence[str]) -> str:
    """Return the triple of the machine for which the compiler was made; LookupError if none."""
    lines = answer([*toolchain, "-vV"]).splitlines()
    found = next((line for line in lines if line.startswith(HOST)), None)
    if found is None:
        raise LookupError("cargo names no host")
    return found.removeprefix(HOST)


def settings_of(rustc: Sequence[str], triple: str) -> list[str]:
    """Return the settings of `cfg` of a target, as the compiler prints them."""
    words = [*rustc, "--print", "cfg", "--target", triple]
    done = subprocess.run(words, capture_output=True, check=True, stdin=subprocess.DEVNULL)
    return done.stdout.decode().splitlines()


def answer(words: Sequence[str], more: dict[str, str] | None = None) -> str:
    """Return what cargo prints; more variables may be in its environment."""
    done = subprocess.run(
        ["cargo", *words],
        capture_output=True,
        check=True,
        stdin=subprocess.DEVNULL,
        env={**os.environ, **more} if more else None,
    )
    return done.stdout.decode()
