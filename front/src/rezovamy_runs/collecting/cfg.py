"""Tells whether an expression of `cfg` holds, as in the names of tables of a configuration."""

from __future__ import annotations

import re
from collections.abc import Collection

TOKEN = re.compile(r'\s*([\w-]+|"[^"]*"|[(),=])')


class Expression:
    """An expression that is read from the left."""

    def __init__(self, text: str, settings: Collection[str]) -> None:
        self._tokens: list[str] = TOKEN.findall(text)
        self._settings = settings

    def _next(self) -> str:
        return self._tokens.pop(0) if self._tokens else ""

    def holds(self) -> bool:
        """Read an expression, and tell whether it holds."""
        word = self._next()
        if self._tokens[:1] == ["("]:
            return self._combined(word)
        if self._tokens[:1] == ["="]:
            self._next()
            return f"{word}={self._next()}" in self._settings
        return word == "true" or word in self._settings

    def _combined(self, word: str) -> bool:
        """Read the expressions in brackets after a word that combines them."""
        parts = []
        self._next()
        while self._tokens and self._tokens[0] != ")":
            parts.append(self.holds())
            if self._tokens[:1] == [","]:
                self._next()
        self._next()
        return not any(parts) if word == "not" else any(parts) if word == "any" else all(parts)


def matches(name: str, settings: Collection[str]) -> bool:
    """Tell whether a name `cfg(..)` holds for settings as `rustc --print cfg` prints them."""
    inner = name.strip().removeprefix("cfg(").removesuffix(")")
    return Expression(inner, settings).holds()
