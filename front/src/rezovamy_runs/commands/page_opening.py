"""Opens a page in the browser of whoever runs a command."""

from __future__ import annotations

import argparse
import pathlib
import webbrowser

from rezovamy_runs.command_line import say
from rezovamy_runs.faults.fault import Fault


def add_option(parser: argparse.ArgumentParser, told: str) -> None:
    """Take whether the page is opened; `told` says of the option what it does."""
    parser.add_argument("--open", dest="opens", action="store_true", help=told)


def refuse_for_output() -> None:
    """Refuse to open a page that goes to standard output."""
    raise Fault("--open needs a page in a file: leave out the -", 2)


def open_page(path: pathlib.Path) -> None:
    """Open a page; if no browser is there, say so. What isn't there isn't opened."""
    if path.is_file() and not has_opened(path.resolve().as_uri()):
        say(f"rezovamy-runs: no browser is found: name one in BROWSER, or open {path} in it")


def has_opened(address: str) -> bool:
    """Tell whether a browser has taken an address."""
    try:
        return webbrowser.open(address)
    except OSError:
        return False
