"""Finds words in a line of `cargo test`."""

from __future__ import annotations

from collections.abc import Sequence


def split_words(words: list[str]) -> tuple[list[str], list[str]]:
    """Split words into what stands before the first `--`, and what stands after it."""
    place = words.index("--") if "--" in words else len(words)
    return words[:place], words[place + 1 :]


def has_option(words: Sequence[str], option: str) -> bool:
    """Return whether an option is among words, alone or with its value."""
    return any(word == option or word.startswith(option + "=") for word in words)


def manifest_of(words: list[str]) -> str | None:
    """Return the value of `--manifest-path` among the words, None where it isn't there."""
    own, _ = split_words(words)
    for place, word in enumerate(own):
        if word.startswith("--manifest-path="):
            return word.partition("=")[2]
        if word == "--manifest-path" and place + 1 < len(own):
            return own[place + 1]
    return None
