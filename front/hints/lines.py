"""The lines of a text, found by their numbers."""
from __future__ import annotations

from typing import Optional

# The length of a part in which a line's end is looked for one by one.
SHORT = 256


def start(text: str, number: int) -> Optional[int]:
    """Where a line begins, from 1; None where the text has fewer."""
    low, high, wanted = 0, len(text), number - 1
    while high - low > SHORT:
        middle = (low + high) // 2
        count = text.count("\n", low, middle)
        if count >= wanted:
            high = middle
        else:
            low, wanted = middle, wanted - count
    for _ in range(wanted):
        low = text.find("\n", low) + 1
        if not low:
            return None
    return low if number > 1 else 0


def stop(text: str, begin: int) -> int:
    """Where the line that begins at a place ends."""
    found = text.find("\n", begin)
    return len(text) if found < 0 else found


def line(text: str, number: int) -> Optional[str]:
    """A line without its end; None where the text has fewer."""
    begin = start(text, number)
    return None if begin is None else text[begin : stop(text, begin)].rstrip("\r")


def number(text: str, at: int) -> int:
    """The number of the line that has a place."""
    return text.count("\n", 0, at) + 1
