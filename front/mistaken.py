"""What is said of a command line that is refused: how many bytes there are, which numbers fit, what `put` takes and which command takes the rest.

    Mistaken(size, room, value).said("error: outside", "set 20 ff")

What it needs to know is asked for by functions: the size of the file; of a path its `Room`, None where that can't be told, and what is there, which is the
reply of `get`, or `calculated`.
"""
from __future__ import annotations

import re
from typing import Callable, NamedTuple, Optional

from front.words import sent_words

OUTSIDE, RANGE, INTEGER = "error: outside", "error: out of range", "error: not an integer"
TYPE = re.compile(r"([us])([1248])(?:le|be)?\Z|b([1-9][0-9]?)(?:le|be)?\Z")
PLACE = re.compile(r"at (\d+)(?:\.(\d))? (\d+)(?:\.(\d))?\Z")


class Room(NamedTuple):
    """The bits of an integer, and whether it has a sign; None where that isn't known."""

    bits: int
    is_signed: Optional[bool]

    def numbers(self) -> str:
        """Which numbers fit."""
        plain, signed = f"0 to {(1 << self.bits) - 1}", f"{-(1 << self.bits - 1)} to {(1 << self.bits - 1) - 1}"
        return f"{plain}, or with a sign {signed}" if self.is_signed is None else signed if self.is_signed else plain


def room_of(kind: str) -> Optional[Room]:
    """The room of an integer of a type, by its name; None where it names none."""
    found = TYPE.match(kind)
    return None if not found else Room(int(found[3]), False) if found[3] else Room(8 * int(found[2]), found[1] == "s")


def room_at(place: str) -> Optional[Room]:
    """The room of an integer whose sign isn't known, by the reply of `at`; None where it has no place."""
    found = PLACE.match(place)
    bits = 8 * (int(found[3]) - int(found[1])) + int(found[4] or 0) - int(found[2] or 0) if found else 0
    return Room(bits, None) if 0 < bits <= 64 else None


class Mistaken:
    """Says of a refused line what would be right, for who can ask more questions."""

    def __init__(self, size: Callable[[], int], room: Callable[[str], Optional[Room]], value: Callable[[str], str]) -> None:
        self.size, self.room, self.value = size, room, value

    def said(self, told: str, line: str) -> str:
        """What is said of the reply to a line; the empty text where there is nothing to say."""
        word, *rest = sent_words(line) or [""]
        if told == OUTSIDE and rest and re.fullmatch("[0-9]{1,20}", rest[0]):
            return self.outside(word, int(rest[0]))
        if word != "put" or len(rest) != 2:
            return ""
        room = self.room(rest[0]) if told == RANGE else None
        return f"{rest[0]} takes {room.numbers()}" if room else self.no_integer(rest[0]) if told == INTEGER else ""

    def outside(self, word: str, place: int) -> str:
        """What there is, of a line that goes past the end."""
        size = self.size()
        if word == "ins":
            return f"{has(size)}: POS is at most {size}"
        more = f", {size - place} of them from {place} on" if 0 < place < size else ""
        return f"{has(size)}{more}" + ("; `app HEX` adds some at its end" if word == "set" else "")

    def no_integer(self, path: str) -> str:
        """What `put` takes, and what writes the value at a path."""
        told = self.value(path)
        if told.startswith(("object ", "[")):
            return f"`put` writes an integer, and {path} is {told}: put what is in it"
        if told == "calculated":
            return f"`put` writes an integer of the file, and {path} is calculated: put what it is made of"
        what = "true or false" if told in ("true", "false") else "a text, or bytes, as long as it is"
        return f"`put` writes an integer, and {path} is none: `write {path} VALUE` writes {what}"


def has(size: int) -> str:
    """How many bytes there are."""
    return f"the file has {size} byte{'' if size == 1 else 's'}"


def general(told: str, size: Optional[int]) -> str:
    """What is said of a reply, where neither its line is known nor more can be asked; the size may not be known either."""
    if told == OUTSIDE:
        return "" if size is None else f"{has(size)}; app HEX adds some at its end"
    if told == RANGE:
        return "; ".join(f"{it} takes {room_of(it).numbers()}" for it in ("u1", "s1", "u2", "s2", "u4", "s4")) + "; a field of N bits 0 to 2^N - 1"
    others = "set POS HEX writes other bytes, where at PATH tells POS; write of bin/ksv-shell takes texts"
    return f"put writes an integer of the file: {others}" if told == INTEGER else ""
