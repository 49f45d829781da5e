"""The tests of the front end: `python3 -m pytest front` at the top of a clone."""

import pathlib

FRONT = pathlib.Path(__file__).resolve().parent.parent
TOP = FRONT.parent
EXAMPLES = TOP / "examples"
