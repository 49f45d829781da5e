"""A fault that a person can do something about."""

from __future__ import annotations


class Fault(Exception):
    """A line that says what is wrong and what to do, and the status with which a program ends."""

    def __init__(self, line: str, status: int = 1) -> None:
        super().__init__(line)
        self.status = status
