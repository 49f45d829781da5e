"""Runs the front end by `python3 -m rezovamy_runs`."""

from __future__ import annotations

import sys

from rezovamy_runs.cli import main

if __name__ == "__main__":
    sys.exit(main())
