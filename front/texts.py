"""What a terminal may show of a text: escapes, columns, cuts."""
import re
import unicodedata
from dataclasses import dataclass
from typing import Iterable, List, Tuple, Union

# How many bytes a row of hexadecimal digits has.
ROW = 16


@dataclass(frozen=True)
class Painted:
    """A row of bytes, in which some are marked: by brackets, and in colour."""

    plain: str
    coloured: str


Line = Union[str, Painted]


def visible(text: str) -> str:
    """A text as a terminal may show it: nothing in it moves the cursor."""
    return text if text.isprintable() else "".join(it if it.isprintable() else escape(it) for it in text)


def escape(letter: str) -> str:
    """How a letter that can't be shown is written; a byte that is no text is one."""
    code = ord(letter)
    return f"\\x{code - 0xDC00:02x}" if 0xDC80 <= code <= 0xDCFF else f"\\u{code:04x}"


def columns(text: str) -> int:
    """How many columns of a terminal a text takes."""
    return len(text) if text.isascii() else sum(0 if is_above(it) else 2 if unicodedata.east_asian_width(it) in "WF" else 1 for it in text)


def is_above(letter: str) -> bool:
    """Whether a letter takes no column of its own: a mark above or below another one, as in Thai and Hindi, or the rest of a Korean syllable."""
    return unicodedata.category(letter) in ("Mn", "Me") or "\u1160" <= letter <= "\u11ff"


def hexed(reply: str) -> str:
    """A reply with its number as hexadecimal digits, if it is an integer or a member of an enum."""
    found = re.fullmatch(r"(-?)([0-9]+)|((?!\")\S+::\S+ \()(-?)([0-9]+)\)", reply)
    if not found:
        return reply
    if found[2]:
        return f"{found[1]}0x{int(found[2]):x}"
    return f"{found[3]}{found[4]}0x{int(found[5]):x})"


def cut(text: str, width: int) -> str:
    """A text, or as much of it as n columns hold."""
    count = 0
    for taken, it in enumerate(text):
        count += columns(it)
        if count > width:
            return f"{text[:taken]} .."
    return text


def padded(text: str, width: int) -> str:
    """A text with spaces up to a column."""
    return text + " " * (width - columns(text))


def rows_of_bytes(some: bytes, start: int, marked: Tuple[int, int]) -> List[Painted]:
    """Rows of bytes from a place on: the place, the bytes and their letters. The bytes from the first of two places to the second are marked."""
    return [row_of_bytes(some[at : at + ROW], start + at, marked) for at in range(0, len(some), ROW)]


def row_of_bytes(some: bytes, start: int, marked: Tuple[int, int]) -> Painted:
    """One row of bytes."""
    flags = [marked[0] <= place < marked[1] for place in range(start, start + len(some))]
    letters = "".join(chr(it) if 32 <= it < 127 else "." for it in some)
    gap = "   " * (ROW - len(some))
    both = []
    for marks in ((" ", "[", "]"), (" ", " \x1b[7m", "\x1b[0m ")):
        digits = "".join(between(was, now, marks) + f"{byte:02x}" for was, now, byte in zip([False, *flags], flags, some))
        both.append(f"{start:8}  {start:06x} {digits}{between(flags[-1], False, marks)}{gap} {letters}")
    return Painted(*both)


def between(was: bool, now: bool, marks: Tuple[str, str, str]) -> str:
    """What is between two bytes: a space, or where the mark begins or ends."""
    return marks[0] if was == now else marks[1] if now else marks[2]


def narrow_of(lines: Iterable[Line], width: int, widest: int) -> List[Line]:
    """Rows of a tree, cut to a terminal's width; but those that name a fault, which are as wide as any line may be."""
    return [it if isinstance(it, Painted) else cut(it, widest if re.search(r" fault \S+ at /\S*$", it) else width) for it in lines]
