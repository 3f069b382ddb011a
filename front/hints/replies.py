"""The replies of the program as they pass to a terminal: what is said below those that refuse a line, and the size of the file, as they tell it."""
from __future__ import annotations

import re
from typing import Iterator, Optional, Tuple

from front.mistaken import general

SIZE = re.compile(rb"(?:ok|size) ([0-9]{1,8})\Z")
# How much of a line is looked at.
LONGEST = 64


class Replies:
    """Replies, of which pieces are taken as they come."""

    def __init__(self, size: Optional[int]) -> None:
        """Begins with the size of the file, None where it isn't known."""
        self.size, self.rest = size, b""

    def take(self, piece: bytes) -> Iterator[Tuple[bytes, str]]:
        """The parts of a piece, each with what is said below it; the empty text where nothing is."""
        *lines, last = piece.split(b"\n")
        for it in lines:
            yield it + b"\n", self.line((self.rest + it)[:LONGEST])
            self.rest = b""
        self.rest = (self.rest + last)[:LONGEST]
        if last:
            yield last, ""

    def line(self, line: bytes) -> str:
        """What is said below a line, by its front."""
        found = SIZE.match(line)
        self.size = int(found[1]) if found else self.size
        return general(line.decode(errors="replace"), self.size) if line.startswith(b"error: ") else ""
