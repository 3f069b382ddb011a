"""A plain model of a session: the bytes after each edit as a list, what was taken back, and which state is saved."""
import json
import re
import zlib
from dataclasses import dataclass, replace
from typing import List, Optional, Tuple

# The place of the integer `/a` of the description, and how many bytes it has.
KSY = b"meta: {id: t, endian: le}\nseq:\n  - {id: a, type: u4}\n  - {id: b, type: u1}\n"
WIDTH = 4


@dataclass(frozen=True)
class Step:
    """An edit: its line, the bytes after it, and the number of this state."""

    line: str
    content: bytes
    version: int


@dataclass(frozen=True)
class State:
    """All that a session holds."""

    origin: bytes
    done: Tuple[Step, ...] = ()
    undone: Tuple[Step, ...] = ()
    saved: int = 0
    greatest: int = 0

    @property
    def content(self) -> bytes:
        """The bytes as they are."""
        return self.done[-1].content if self.done else self.origin

    @property
    def version(self) -> int:
        """The number of the state."""
        return self.done[-1].version if self.done else 0

    def is_saved(self) -> bool:
        """Whether it is the state that was saved."""
        return self.version == self.saved

    def listed(self) -> str:
        """What `edits` tells."""
        rows = [f"{count:4}  {it.line}" for count, it in enumerate(self.done, 1)]
        rows += [f"  and {len(self.undone)} that `redo` makes again"] if self.undone else []
        return "\n".join([*rows, f"saved: {'yes' if self.is_saved() else 'no'}"])

    def after(self, line: str) -> Tuple["State", str]:
        """The state after a line, and what is told below it."""
        word, *rest = line.removeprefix("raw ").split(" ")
        if word == "undo":
            return self.undo()
        if word == "redo":
            return self.redo()
        if word == "save":
            return replace(self, saved=self.version), f"saved {len(self.content)} bytes to {rest[0]}"
        if word == "size":
            return self, f"size {len(self.content)}"
        new = edited(self.content, word, rest)
        if isinstance(new, str):
            return self, new
        step = Step(line.removeprefix("raw "), new, self.greatest + 1)
        return replace(self, done=(*self.done, step), undone=(), greatest=self.greatest + 1), f"ok {len(new)}"

    def undo(self) -> Tuple["State", str]:
        """The state without the last edit."""
        if not self.done:
            return self, "no edit to undo"
        new = replace(self, done=self.done[:-1], undone=(*self.undone, self.done[-1]))
        return new, f"ok {len(new.content)}  (took back: {self.done[-1].line})"

    def redo(self) -> Tuple["State", str]:
        """The state with the edit again that was taken back last."""
        if not self.undone:
            return self, "no edit to redo"
        new = replace(self, done=(*self.done, self.undone[-1]), undone=self.undone[:-1])
        return new, f"ok {len(new.content)}  (again: {self.undone[-1].line})"


def edited(content: bytes, word: str, rest: List[str]) -> "bytes | str":
    """The bytes after an edit, or how it is refused."""
    if word == "put":
        if len(content) < WIDTH:
            return "fault end-of-bytes at /a"
        return int(rest[1]).to_bytes(WIDTH, "little") + content[WIDTH:] if int(rest[1]) < 256**WIDTH else "error: out of range"
    if word == "app":
        return content + bytes.fromhex(rest[0])
    at = int(rest[0])
    if word == "del":
        return content[:at] + content[at + int(rest[1]) :] if at + int(rest[1]) <= len(content) else "error: outside"
    some = bytes.fromhex(rest[1])
    if word == "ins":
        return content[:at] + some + content[at:] if at <= len(content) else "error: outside"
    return content[:at] + some + content[at + len(some) :] if at + len(some) <= len(content) else "error: outside"


@dataclass(frozen=True)
class Noted:
    """What a journal has, read by a reader of the test's own."""

    origin: bytes
    content: bytes
    done: Tuple[str, ...]
    undone: Tuple[str, ...]
    is_saved: bool


def noted(path: str) -> Optional[Noted]:
    """What a journal has; None where it can't be read."""
    with open(path, "rb") as file:
        whole = file.read()
    first, _, rest = whole.partition(b"\n")
    head = record(first)
    if head is None:
        return None
    origin, done, undone, saved = rest[: head["size"]], [], [], 0  # type: bytes, list, list, int
    for line in rest[head["size"] :].split(b"\n")[:-1]:
        event = record(line)
        if event is None:
            break
        if "made" in event:
            done, undone = [*done, event], []
        elif "saved" in event:
            saved = event["saved"]
        elif "saving" in event:
            continue
        elif event["step"] == "undo":
            done, undone = done[:-1], [*undone, done[-1]]
        else:
            done, undone = [*done, undone[-1]], undone[:-1]
    content = origin
    for effect in [it for event in done for it in event["effect"]]:
        word, *words = effect.split(" ")
        content = edited(content, word, words)
    version = done[-1]["version"] if done else 0
    return Noted(origin, content, tuple(it["made"] for it in done), tuple(it["made"] for it in undone), version == saved)


def record(line: bytes) -> Optional[dict]:
    """A line of a journal without its sum; None where that is wrong."""
    if not re.match(rb"[0-9a-f]{8} ", line) or int(line[:8], 16) != zlib.crc32(line[9:]):
        return None
    return json.loads(line[9:])
