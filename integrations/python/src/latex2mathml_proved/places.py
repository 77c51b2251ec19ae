"""Places in texts, as editors count them."""
from typing import NamedTuple


class Place(NamedTuple):
    """A line and a column, counted from 1."""

    line: int
    column: int


def place_of(text: str, index: int) -> Place:
    """Returns the place of the character at an index of a text."""
    before = text[:index]
    return Place(before.count("\n") + 1, index - (before.rfind("\n") + 1) + 1)
