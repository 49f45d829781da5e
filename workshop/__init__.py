"""What checks this repository: cases, edits, sweeps, costs and pages.

Each module with a `main` runs from the top of a clone as `python3 -m workshop.NAME`.
"""

import sys
from pathlib import Path

TOP = Path(__file__).resolve().parent.parent
PROGRAM = TOP / "crates/rezovamy/out/rezovamy"
FRONT = TOP / "front"

# The front end needn't be installed, and its tests have what makes and opens pages.
sys.path[:0] = [str(FRONT / "src"), str(FRONT)]
