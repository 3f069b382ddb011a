"""A refused description: the message of the program, the line that it names, and the hint that is shown below it."""
from __future__ import annotations

import os
import re
from typing import NamedTuple, Optional, Sequence

from front.hints import advice, arguments, lines
from front.hints.shown import visible

# The most bytes of a description that the program reads; it refuses one with more.
MAX_LENGTH = 1_048_576
TOLD = re.compile(r"ksv: (.*): line (\d{1,9}): ([SY]\d+) ([^\n]*)\n", re.S)


class Refusal(NamedTuple):
    """What a message tells: the description's name, the number of the line, the code, and its text."""

    name: str
    line: int
    code: str
    text: str


def read(message: str) -> Optional[Refusal]:
    """The refusal that a message is; None where it is none of a description."""
    found = TOLD.fullmatch(message)
    return Refusal(found[1], int(found[2]), found[3], found[4]) if found else None


def description(name: str) -> Optional[str]:
    """The text of a description, of which no more is read than the program reads; None where it is no plain file."""
    if not os.path.isfile(name):
        return None
    with open(name, "rb") as file:
        return file.read(MAX_LENGTH + 1).decode(errors="replace")


def hint(message: str, words: Sequence[str]) -> str:
    """What is shown below a message: the line that it names, and how to go on; nothing where it names no line of a file."""
    told, plain = read(message), arguments.read(words).plain
    if not told or told.name not in plain:
        return ""
    if len(plain) == 2 and plain[0].endswith(".ksy") and not plain[1].endswith(".ksy"):
        return "      = the description comes second: ksv FILE KSY\n"
    text = description(told.name)
    return "" if text is None else below(text, told)


def below(text: str, told: Refusal) -> str:
    """The refused line of a text with its number, and how to go on."""
    front = shown_line(text, told.line)
    if not front:
        return ""
    what = advice.of(text, told.line, told.code, told.text).text.replace("`", "")
    return front + (f"      = {visible(what, 2000)}\n" if what else "")


def shown_line(text: str, number: int) -> str:
    """A line of a text as it is shown, with its number; the empty text where there is none."""
    line = lines.line(text, number)
    return "" if line is None else f"{number:>5} | {visible(line)}\n"

