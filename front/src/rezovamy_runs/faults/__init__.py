"""Faults: what is wrong, in a line, and what to do about it."""
