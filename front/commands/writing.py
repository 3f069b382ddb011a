"""Commands that write values, and files into the file and out of it."""
import os
from typing import TYPE_CHECKING, List

from front import words as reader
from front.copies import read
from front.session import pieces
from front.values import Unwritable, Writer
from front.words import Word

if TYPE_CHECKING:
    from front.shell import Shell

# What a `put` is told where there is no integer.
NO_INTEGER = "error: not an integer"
# The largest file that ksv reads, and the most bytes that one line writes.
LARGEST, WRITTEN = 16_777_216, 2000


def write(shell: "Shell", word: str, words: List[Word]) -> None:
    """Writes a value over the one at a path."""
    if len(words) < 2:
        shell.usage(word)
        return
    shell.asked = shell.path(words[0].text)
    writer = Writer(shell.explorer(), shell.description())
    try:
        line = writer.put(shell.asked, words[1:])
        told = shell.made(line) if line else NO_INTEGER
        if told == NO_INTEGER:
            line = writer.line(shell.asked, words[1:])
            told = shell.made(line)
    except Unwritable as error:
        shell.output.show([str(error)])
        return
    shell.output.show([told, *shell.explained(told, line)])


def extract(shell: "Shell", word: str, words: List[Word]) -> None:
    """Writes the bytes of what is at a path to a new file."""
    if len(words) < 2:
        shell.usage(word)
        return
    path, out = shell.path(words[0].text), reader.name_of(shell.typed, words)
    span = shell.explorer().span(path)
    if not span:
        shell.reply(f"at {path}")
        return
    content = shell.keeper.session.content(span[0], span[1] - span[0])
    write_new(out, content)
    shell.output.show([f"{len(content)} bytes of {path} are in {out}"])


def write_new(out: str, content: bytes) -> None:
    """Writes a new file; where that fails, nothing is left of it."""
    with open(out, "xb", buffering=0) as file:
        try:
            rest = memoryview(content)
            while rest:
                rest = rest[file.write(rest) :]
        except OSError:
            os.remove(out)
            raise


def insert(shell: "Shell", word: str, words: List[Word]) -> None:
    """Puts the bytes of a file before a place."""
    place = reader.place(words[0]) if len(words) > 1 else None
    if place is None:
        shell.usage(word)
        return
    name = reader.name_of(shell.typed, words)
    content = read_file(name)
    shell.output.show([shell.made_all(f"insert {place} {name}", inserts(place, content)) if content else f"{name} is empty"])


def replace(shell: "Shell", word: str, words: List[Word]) -> None:
    """Puts the bytes of a file in the place of what is at a path."""
    if len(words) < 2:
        shell.usage(word)
        return
    path, name = shell.path(words[0].text), reader.name_of(shell.typed, words)
    span = shell.explorer().span(path)
    if not span:
        shell.reply(f"at {path}")
        return
    content, count = read_file(name), span[1] - span[0]
    shared = min(count, len(content))
    lines = [f"set {span[0] + at} {content[at : at + some].hex()}" for at, some in pieces(0, shared, WRITTEN)]
    if count > shared:
        lines.append(f"del {span[0] + shared} {count - shared}")
    lines += inserts(span[0] + shared, content[shared:])
    shell.output.show([shell.made_all(f"replace {path} {name}", lines) if lines else f"{path} and {name} are empty"])


def inserts(place: int, content: bytes) -> List[str]:
    """The lines that put bytes before a place."""
    return [f"ins {place + at} {content[at : at + some].hex()}" for at, some in pieces(0, len(content), WRITTEN)]


def read_file(name: str) -> bytes:
    """The bytes of a file that isn't too large."""
    content = read(name, LARGEST + 1)
    if len(content) > LARGEST:
        raise OSError(None, f"{name}: file too large")
    return content
