"""Values as a person writes them, as lines of edits: numbers, texts, truth values, bytes, members of enums."""
import re
from dataclasses import dataclass
from typing import List, Optional, Tuple

from front.description import Description, Member
from front.look import Explorer, span_of
from front.mistaken import room_at
from front.words import Word, bytes_of, number


# What is told where only a number can be written.
NUMBER = "a number is wanted here, as 7 or 0x1f"


@dataclass(frozen=True)
class Ending:
    """The byte that ends a text; whether it is a part of it, and whether the rest of the text's room is filled with it."""

    byte: bytes
    is_included: bool
    is_filled: bool


class Unwritable(Exception):
    """A value that can't be written at a path; why, and what could."""


class Writer:
    """Makes the line that writes a value over the one at a path."""

    def __init__(self, explorer: Explorer, description: Description) -> None:
        self.explorer, self.description = explorer, description

    def put(self, path: str, words: List[Word]) -> Optional[str]:
        """The line that writes a number where the value at a path is a fault: an integer that isn't valid is one all the same, and only the program can tell.
        None where no number is written, or the value isn't a fault."""
        is_number = len(words) == 1 and words[0].quoted is None and re.fullmatch(r"-?(?:0[xX][0-9a-fA-F]+|[0-9]+)", words[0].text)
        return f"put {path} {number(words[0])}" if is_number and self.explorer.ask(f"get {path}").startswith("fault ") else None

    def line(self, path: str, words: List[Word]) -> str:
        """The line that writes these words as the value at a path."""
        told = self.explorer.ask(f"get {path}")
        place = self.explorer.ask(f"at {path}")
        span = span_of(place)
        if not span:
            raise Unwritable(f"{path} is {place}: only what has bytes can be written")
        enum = self.enum(path, told)
        if enum or re.fullmatch(r"-?[0-9]+", told):
            return f"put {path} {self.integer(enum, words)}"
        if told in ("true", "false"):
            return self.truth(place, words)
        if told.startswith(("object ", "[")) or self.explorer.ask(f"ls {path}") != "no members":
            raise Unwritable(f"{path} is {told}: write what is in it")
        if "." in place:
            return self.bits(place, words)
        return self.plain(path, told, span, words)

    def enum(self, path: str, told: str) -> str:
        """The name of the enum of the value at a path, by the reply of `get`, or by the description where that is a fault; the empty text where it has none."""
        if re.fullmatch(r"(?!\")\S+::\S+ \(-?[0-9]+\)", told):
            return told.partition("::")[0]
        member = self.member(path) if told.startswith("fault ") else None
        return member.value.said("enum").rpartition("::")[2] if member else ""

    def integer(self, enum: str, words: List[Word]) -> str:
        """A number, or that of an enum's member."""
        name = words[0].text
        if len(words) != 1 or words[0].quoted is not None:
            raise Unwritable(NUMBER)
        if re.fullmatch(r"-?(?:0[xX][0-9a-fA-F]+|[0-9]+)", name):
            return number(words[0])
        found = self.description.number_of(enum, name.rpartition("::")[2]) if enum else None
        if found is None:
            raise Unwritable(f"{name} is no number" + (f", nor a member of {enum}" if enum else ""))
        return str(found)

    def truth(self, place: str, words: List[Word]) -> str:
        """The line that writes one bit."""
        if len(words) != 1 or words[0].text not in ("true", "false", "1", "0"):
            raise Unwritable("true or false is wanted here")
        found = re.fullmatch(r"at (\d+)(?:\.(\d))? .*", place)
        byte, bit = int(found[1]), 0x80 >> int(found[2] or 0)
        was = self.explorer.session.content(byte, 1)[0]
        return f"set {byte} {was | bit if words[0].text in ('true', '1') else was & ~bit:02x}"

    def bits(self, place: str, words: List[Word]) -> str:
        """The line that writes over a faulty value that shares a byte with others: one bit is a truth value, and more are a number, which `put` writes."""
        if room_at(place).bits > 1:
            raise Unwritable(NUMBER)
        return self.truth(place, words)

    def plain(self, path: str, told: str, span: Tuple[int, int], words: List[Word]) -> str:
        """The line that writes a text or bytes over as many as are there. What is left of a text's own room is filled with the byte that ends it."""
        digits = bytes_of(words)
        if not re.fullmatch(r"(?:[0-9a-fA-F]{2})*", digits):
            raise Unwritable('bytes are wanted here, as 01 02ff, or a "TEXT"')
        content, room, after = bytes.fromhex(digits), span[1] - span[0], 0
        ending = self.ending(path) if any(it.quoted is not None for it in words) else None
        if ending:
            content = content.removesuffix(ending.byte) if ending.is_included else content
            if content.find(ending.byte) >= 0:
                raise Unwritable(f"{path} ends at its first byte {ending.byte[0]}: the text has one")
            after = self.num_after(ending, span)
            content = content.ljust(room, ending.byte) if ending.is_filled else content + ending.byte * after
        if len(content) != room:
            kind, wanted = "a text" if told.startswith('"') else "bytes", room - after
            raise Unwritable(f"{path} is {kind} of {wanted} byte{'' if wanted == 1 else 's'}, and these are {len(content) - after}: `ins` and `del` make room or take it")
        return f"set {span[0]} {content.hex()}"

    def num_after(self, ending: Ending, span: Tuple[int, int]) -> int:
        """How many bytes at a text's place are no room for it: the one that ends it, where that is the last one there. It may be missing at the stream's end."""
        return int(not ending.is_filled and span[0] < span[1] and self.explorer.session.content(span[1] - 1, 1) == ending.byte)

    def member(self, path: str) -> Optional[Member]:
        """What the description has of what is at a path; None where that can't be told."""
        path = re.sub(r"(?:/\d+)+$", "", path)
        front, _, name = path.rpartition("/")
        kind = re.fullmatch(r"object (\S+)", self.explorer.ask(f"get {front or '/'}"))
        return self.description.member(kind[1] if front else None, name) if kind else None

    def ending(self, path: str) -> Optional[Ending]:
        """How a text at a path ends, if its description has a byte for that."""
        member = self.member(path)
        if not member:
            return None
        text = member.value.said("terminator")
        byte = int(text, 0) if re.fullmatch(r"0x[0-9a-fA-F]{1,2}|[1-9][0-9]{0,2}|0", text) else 0 if member.value.said("type") == "strz" else 256
        is_filled = bool(member.value.said("size") or member.value.said("size-eos"))
        return Ending(bytes([byte]), member.value.said("include") == "true", is_filled) if byte < 256 else None
