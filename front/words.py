"""The words of a line that a person types: quoted texts, numbers, bytes, names of files.

Words are separated by spaces and tabs. A word that begins with `"` is a quoted text, up to the next `"`: in it all spaces count, and `\\` begins an escape.
"""
import re
from dataclasses import dataclass
from typing import List, Optional, Tuple

ESCAPES = {"\\": b"\\", '"': b'"', "n": b"\n", "r": b"\r", "t": b"\t", "b": b"\b", "f": b"\f", "0": b"\0"}
# The greatest place, count or number that ksv reads, and how many digits it has.
GREATEST, DIGITS = (1 << 64) - 1, 20


class Misread(Exception):
    """A line that can't be read, and why."""


@dataclass(frozen=True)
class Word:
    """A word: its text, the bytes of a quoted one, and where the line goes on after it."""

    text: str
    quoted: Optional[bytes]
    begin: int
    end: int


def words_of(line: str) -> List[Word]:
    """The words of a line."""
    found, at = [], skipped(line, 0)
    while at < len(line):
        word = quoted(line, at) if line[at] == '"' else plain(line, at)
        found.append(word)
        at = skipped(line, word.end)
    return found


def head_of(line: str) -> Tuple[str, str]:
    """The first word of a line as it is, and the rest of the line; empty texts where there is none."""
    found = re.match(r"[ \t\r]*([^ \t\r]*)[ \t\r]*", line)
    return found[1], line[found.end() :]


def skipped(line: str, at: int) -> int:
    """Where the next word begins."""
    while at < len(line) and line[at] in " \t\r":
        at += 1
    return at


def plain(line: str, at: int) -> Word:
    """A word up to the next space or tab."""
    end = next((it for it in range(at, len(line)) if line[it] in " \t\r"), len(line))
    return Word(line[at:end], None, at, end)


def quoted(line: str, begin: int) -> Word:
    """A quoted text, with its escapes read."""
    found, at = b"", begin + 1
    while at < len(line) and line[at] != '"':
        if line[at] == "\\":
            some, at = escaped(line, at + 1)
        else:
            some, at = line[at].encode(errors="surrogateescape"), at + 1
        found += some
    if at >= len(line):
        raise Misread("a quote isn't closed")
    if at + 1 < len(line) and line[at + 1] not in " \t\r":
        raise Misread('a space is missing after a closing quote; within quotes write \\" for "')
    return Word(line[begin : at + 1], found, begin, at + 1)


def escaped(line: str, at: int) -> Tuple[bytes, int]:
    """The bytes of an escape whose letter is at a place, and where it ends."""
    letter = line[at : at + 1]
    if letter in ESCAPES and letter:
        return ESCAPES[letter], at + 1
    count = {"x": 2, "u": 4}.get(letter, 0)
    digits = line[at + 1 : at + 1 + count]
    if count and re.fullmatch(f"[0-9a-fA-F]{{{count}}}", digits):
        code = int(digits, 16)
        if letter == "u" and 0xD800 <= code <= 0xDFFF:
            raise Misread(f"\\u{digits} is no letter by itself")
        return (bytes([code]) if letter == "x" else chr(code).encode()), at + 1 + count
    raise Misread('in quotes write \\\\ \\" \\n \\r \\t \\b \\f \\0 \\x1f or \\u00e4 for a letter after \\')


def number(word: Word) -> str:
    """A number as ksv reads it, from decimal digits or `0x` and hexadecimal ones; another text as it is."""
    found = re.fullmatch(r"(-?)0[xX]([0-9a-fA-F]{1,16})", word.text)
    return found[1] + str(int(found[2], 16)) if found else word.text


def place(word: Word) -> Optional[int]:
    """A number from 0 to 2^64 - 1 that a word writes; None where it writes none."""
    digits = number(word)
    if word.quoted is not None or not re.fullmatch(rf"[0-9]{{1,{DIGITS}}}", digits):
        return None
    found = int(digits)
    return found if found <= GREATEST else None


def bytes_of(words: List[Word]) -> str:
    """The hexadecimal digits of bytes: of words of digits, two for each byte, and of quoted texts. Words of anything else are handed on as they are, for
    ksv to refuse."""
    found = ""
    for word in words:
        if word.quoted is not None:
            found += word.quoted.hex()
            continue
        digits = re.sub(r"^0[xX]", "", word.text)
        if re.fullmatch(r"[0-9a-fA-F]+", digits) and len(digits) % 2:
            raise Misread(f"{word.text} has an odd number of digits: a byte has two, as in 0{digits[-1]}")
        found += digits
    return found


def name_of(line: str, words: List[Word]) -> str:
    """The name of a file: the rest of a line after its first word as it is, spaces too, or one quoted text."""
    if len(words) == 2:
        return word_name(words[1])
    return usable(line[words[1].begin : words[-1].end] if len(words) > 1 else "")


def word_name(word: Word) -> str:
    """The name of a file that one word is."""
    return usable(word.text if word.quoted is None else word.quoted.decode(errors="surrogateescape"))


def usable(name: str) -> str:
    """The name of a file, which is refused where no file can have it."""
    if "\0" in name:
        raise Misread("a file's name has no byte 0")
    return name


def has_reply(line: str) -> bool:
    """Whether ksv answers a line: not one without words, or whose first word begins with `#`."""
    return not re.match(r"[ \t]*(?:\r?$|#)", line)


def sent_words(line: str) -> List[str]:
    """The words of a line as ksv reads it."""
    return re.split(r"[ \t]+", line.removesuffix("\r").strip(" \t"))
