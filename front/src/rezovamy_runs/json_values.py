"""Narrows values of JSON to the forms that are wanted of them; another form is a WrongMember."""

from __future__ import annotations

import dataclasses
from typing import NoReturn

JsonObject = dict[str, object]


class WrongMember(ValueError):
    """A JSON value isn't of the form that is expected where it stands."""


@dataclasses.dataclass(frozen=True, slots=True)
class Members:
    """The members of a JSON object by their names."""

    values: JsonObject

    def has(self, name: str) -> bool:
        """Return whether the object has a member that isn't null."""
        return self.values.get(name) is not None

    def required(self, name: str) -> object:
        """Return the value of a member that has to be there."""
        if name not in self.values:
            raise WrongMember(f"no member {name!r} is there")
        return self.values[name]

    def text(self, name: str) -> str:
        """Return the text of a member."""
        return text_of(self.required(name), repr(name))

    def optional_text(self, name: str) -> str | None:
        """Return the text of a member, None where it is missing or null."""
        return self.text(name) if self.has(name) else None

    def texts(self, name: str) -> tuple[str, ...]:
        """Return the texts of a member that is a list of them."""
        return tuple(text_of(item, item_of(name)) for item in self.items(name))

    def optional_texts(self, name: str) -> tuple[str, ...]:
        """Return the texts of a member, none where it is missing or null."""
        return self.texts(name) if self.has(name) else ()

    def whole_number(self, name: str) -> int:
        """Return the whole number of a member."""
        value = self.required(name)
        if not isinstance(value, int) or isinstance(value, bool):
            refuse(value, repr(name), "whole number")
        return value

    def optional_whole_number(self, name: str) -> int | None:
        """Return the whole number of a member, None where it is missing or null."""
        return self.whole_number(name) if self.has(name) else None

    def truth(self, name: str) -> bool:
        """Return whether a member is true."""
        value = self.required(name)
        return value if isinstance(value, bool) else refuse(value, repr(name), "truth value")

    def inner(self, name: str) -> Members:
        """Return the object of a member."""
        return members_of(self.required(name), repr(name))

    def optional_inner(self, name: str) -> Members | None:
        """Return the object of a member, None where it is missing or null."""
        return self.inner(name) if self.has(name) else None

    def items(self, name: str) -> list[object]:
        """Return the items of a member that is a list."""
        value = self.required(name)
        return value if isinstance(value, list) else refuse(value, repr(name), "list")

    def inner_list(self, name: str) -> list[Members]:
        """Return the objects of a member that is a list of them."""
        return [members_of(item, item_of(name)) for item in self.items(name)]


def members_of(value: object, what: str = "a value") -> Members:
    """Return the members of a value that has to be an object."""
    return Members(value) if isinstance(value, dict) else refuse(value, what, "object")


def text_of(value: object, what: str = "a value") -> str:
    """Return a value that has to be a text."""
    return value if isinstance(value, str) else refuse(value, what, "text")


def item_of(name: str) -> str:
    """Return what an item of a list is called that is a member."""
    return f"an item of {name!r}"


def refuse(value: object, what: str, wanted: str) -> NoReturn:
    """Say that a value hasn't the form that is wanted of it."""
    raise WrongMember(f"{what} is no {wanted}: {value!r:.80}")
