"""Code blocks between fences of backticks or tildes, with their languages."""
import bisect
import re
from typing import Dict, Iterator, List, NamedTuple

# Both may be indented or quoted, but then in the same way.
_OPENING = re.compile(r"(?P<fence>[ >]*(?:`{3,}|~{3,}))[ ]*(?P<language>[^`]*)")
_CLOSING = re.compile(r"[ >]*(?:`{3,}|~{3,})")


class Fence(NamedTuple):
    """A code block: the numbers of its first and last lines, which are its fences, and its language."""

    first: int
    last: int
    language: str


def fences(lines: List[str]) -> Iterator[Fence]:
    """Yields the code blocks, from top to bottom. A fence that nothing closes begins none."""
    ends: Dict[str, List[int]] = {}
    for number, line in enumerate(lines):
        if _CLOSING.fullmatch(line.rstrip()):
            ends.setdefault(line.rstrip(), []).append(number)
    behind = 0
    for number, line in enumerate(lines):
        opening = _OPENING.fullmatch(line) if number >= behind else None
        if opening:
            own_ends = ends.get(opening["fence"], [])
            place = bisect.bisect_right(own_ends, number)
            if place < len(own_ends):
                behind = own_ends[place] + 1
                yield Fence(number, own_ends[place], opening["language"].strip())
