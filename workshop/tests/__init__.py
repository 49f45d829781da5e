"""The tests of the workshop: `python3 -m pytest workshop` at the top of a clone."""
