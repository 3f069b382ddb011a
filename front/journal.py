"""Accepted edits on the disk, before the prompt comes back: what is left of a session that ended with edits that aren't saved.

A journal is a file of the person's own (mode 0600) in `$XDG_STATE_HOME/ksv`, or `~/.local/state/ksv`. It begins with a line about the edited file and
the file's bytes as they were opened. After that comes a record for each edit, `undo` and `redo`, and one before and after each save, with size and sum of
the bytes: so a save is known for the session's own, also where it ended between the two. Each line begins with a sum of the rest, so that one that was
broken off is known. The session that writes it holds a lock on it.
"""
import errno
import fcntl
import glob
import hashlib
import json
import os
import secrets
import time
import zlib
from dataclasses import dataclass, replace
from typing import Iterable, Iterator, List, Optional, Tuple

from front.copies import read
from front.edits import Edit, Edits

# How many journals of one file are kept of sessions that ended.
KEPT = 8


class NoJournal(Exception):
    """A journal that can't be read or taken up; why."""


def folder(environ: Optional[dict] = None) -> str:
    """The folder of journals and of the history, which is made where it isn't there."""
    env = os.environ if environ is None else environ
    state = env.get("XDG_STATE_HOME", "")
    found = os.path.join(state if state.startswith("/") else os.path.join(os.path.expanduser("~"), ".local", "state"), "ksv")
    if not found.startswith("/"):
        raise OSError(errno.ENOENT, "there is no home folder")
    os.makedirs(found, mode=0o700, exist_ok=True)
    return found


def key_of(file: str) -> str:
    """What the names of a file's journals begin with."""
    return hashlib.sha256(os.path.realpath(file).encode(errors="surrogateescape")).hexdigest()[:16]


def line_of(event: dict) -> bytes:
    """A record as a line."""
    text = json.dumps(event).encode()
    return b"%08x %s\n" % (zlib.crc32(text), text)


def event_of(line: bytes) -> Optional[dict]:
    """The record of a line; None where the line is broken."""
    if not line.endswith(b"\n") or line[8:9] != b" " or line[:8] != b"%08x" % zlib.crc32(line[9:-1]):
        return None
    return json.loads(line[9:-1])


def made(edit: Edit, version: int) -> dict:
    """The record of an edit, and of the number of the state after it."""
    return {"made": edit.line, "effect": edit.effect, "version": version}


def saving(content: bytes, out: str, version: int) -> dict:
    """The record of a save that begins: of a state with these bytes, to a file."""
    return {"saving": version, "to": os.path.realpath(out), "size": len(content), "sum": sum_of(content)}


def saved(begun: dict) -> dict:
    """The record of a save that went well, by that of its begin."""
    return {"saved": begun["saving"], "to": begun["to"], "size": begun["size"], "sum": begun["sum"]}


def after(edits: Edits, event: dict) -> Edits:
    """The edits after one more record."""
    if "made" in event:
        return edits.made(Edit(event["made"], tuple(event["effect"])), event["version"])
    if "saved" in event:
        return edits.marked_saved(event["saved"])
    return edits if "saving" in event else edits.taken_back() if event.get("step") == "undo" else edits.again()


def is_possible(edits: Edits, event: dict) -> bool:
    """Whether there is the edit that a record takes back or makes again, if it does one of these."""
    step = event.get("step")
    return not step or bool(edits.last if step == "undo" else edits.undone)


def events_of(edits: Edits, saves: Iterable[dict] = ()) -> Iterator[dict]:
    """Records that lead to the same edits, also those that were taken back, and to the same state that is saved; and the records of saves."""
    for it in edits.holding():
        yield made(it.edit, it.version)
    undone = edits.taken_away()
    for it in undone:
        yield made(it.edit, it.version)
    for _ in undone:
        yield {"step": "undo"}
    yield from saves
    yield {"saved": edits.saved}


@dataclass(frozen=True)
class Left:
    """What is told of a journal: the sum of the file as its session opened or saved it last, how many edits hold, whether they are saved, when the last one
    was made, and whether its session goes on."""

    path: str
    sum: str
    count: int
    is_saved: bool
    time: float
    is_open: bool = False


@dataclass(frozen=True)
class Held:
    """All that a journal holds: the edited file, its sum as it was opened or saved last, its bytes as they were opened, the edits, the length of what isn't
    broken, the record of a save to the file that wasn't told to have gone well, and the one that tells it."""

    file: str
    sum: str
    origin: bytes
    edits: Edits
    length: int
    begun: Optional[dict] = None
    told: Optional[dict] = None

    def after(self, event: dict, length: int) -> "Held":
        """What it holds with one more record, of a length."""
        found = replace(self, edits=after(self.edits, event), length=self.length + length)
        if event.get("to") != self.file:
            return found
        return replace(found, begun=event) if "saving" in event else replace(found, begun=None, sum=event["sum"])

    def settled(self) -> "Held":
        """The same, where a save went well of which that wasn't told: the file has its bytes."""
        if not self.begun or size_at(self.file) != self.begun["size"] or sum_at(self.file) != self.begun["sum"]:
            return self
        return replace(self, begun=None, told=saved(self.begun), sum=self.begun["sum"], edits=self.edits.marked_saved(self.begun["saving"]))


class Journal:
    """The journal of a session. Records that can't be written now are written with the next one."""

    def __init__(self, path: str, number: int, length: int) -> None:
        self.path, self._number, self._length = path, number, length
        self._waiting: List[bytes] = []

    @classmethod
    def begun(cls, file: str, origin: bytes) -> "Journal":
        """A new journal of a file; where that fails, nothing is left of it."""
        where = folder()
        path = os.path.join(where, f"{key_of(file)}-{secrets.token_hex(8)}.journal")
        head = {"ksv-journal": 1, "file": os.path.realpath(file), "size": len(origin), "sum": sum_of(origin)}
        number = os.open(f"{path}.new", os.O_RDWR | os.O_CREAT | os.O_EXCL | os.O_CLOEXEC | os.O_NOFOLLOW, 0o600)
        journal = cls(path, number, 0)
        try:
            fcntl.flock(number, fcntl.LOCK_EX | fcntl.LOCK_NB)
            journal._write(line_of(head) + origin)
            os.rename(f"{path}.new", path)
            synced(where)
        except BaseException:
            os.close(number)
            for it in (f"{path}.new", path):
                removed(it)
            raise
        return journal

    @classmethod
    def taken_up(cls, left: Left) -> Tuple["Journal", Held]:
        """The journal of a session that ended, which goes on as this one's, and what it holds."""
        number = os.open(left.path, os.O_RDWR | os.O_CLOEXEC | os.O_NOFOLLOW)
        try:
            fcntl.flock(number, fcntl.LOCK_EX | fcntl.LOCK_NB)
            held = parsed(number, left.path)
            os.ftruncate(number, held.length)
        except BaseException:
            os.close(number)
            raise
        return cls(left.path, number, held.length), held.settled()

    def note(self, event: dict) -> None:
        """Writes a record, and all that wait."""
        self._waiting.append(line_of(event))
        self._write(b"".join(self._waiting))
        self._waiting.clear()

    def _write(self, content: bytes) -> None:
        """Adds bytes at the end, down to the disk; where that fails, none of them."""
        try:
            rest, at = memoryview(content), self._length
            while rest:
                count = os.pwrite(self._number, rest, at)
                rest, at = rest[count:], at + count
            os.fsync(self._number)
        except OSError:
            os.ftruncate(self._number, self._length)
            raise
        self._length = at

    def close(self, is_kept: bool) -> None:
        """Ends the journal; where nothing of it is wanted any more, it is removed, if it can be."""
        try:
            if not is_kept:
                removed(self.path)
        except OSError:
            pass
        os.close(self._number)


def synced(where: str) -> None:
    """Sees that the names in a folder are on the disk."""
    number = os.open(where, os.O_RDONLY | os.O_DIRECTORY | os.O_CLOEXEC)
    try:
        os.fsync(number)
    finally:
        os.close(number)


def removed(path: str) -> None:
    """Removes a file, if it is there."""
    try:
        os.remove(path)
    except FileNotFoundError:
        pass


def parsed(number: int, path: str) -> Held:
    """What a journal holds."""
    with os.fdopen(os.dup(number), "rb") as file:
        file.seek(0)
        first = file.readline()
        head = event_of(first)
        origin = file.read(head["size"]) if head else b""
        if not head or sum_of(origin) != head["sum"]:
            raise NoJournal(f"{path}: the journal is broken")
        held = Held(head["file"], head["sum"], origin, Edits(), len(first) + len(origin))
        for line in file:
            event = event_of(line)
            if event is None or not is_possible(held.edits, event):
                break
            held = held.after(event, len(line))
        return held


def left_of(path: str) -> Left:
    """What is told of a journal, which a session may still write."""
    number = os.open(path, os.O_RDONLY | os.O_NONBLOCK | os.O_CLOEXEC | os.O_NOFOLLOW)
    try:
        held, is_open = parsed(number, path).settled(), False
        try:
            fcntl.flock(number, fcntl.LOCK_SH | fcntl.LOCK_NB)
        except BlockingIOError:
            is_open = True
        return Left(path, held.sum, len(held.edits.holding()), held.edits.is_saved(), os.fstat(number).st_mtime, is_open)
    finally:
        os.close(number)


def found(file: str) -> List[Left]:
    """What other sessions over a file left, the newest first. A journal without an edit that isn't saved is removed where its session ended, and so are
    the oldest ones over a number."""
    lefts = []
    for path in glob.glob(os.path.join(glob.escape(folder()), f"{key_of(file)}-*.journal")):
        try:
            lefts.append(left_of(path))
        except (NoJournal, OSError):
            continue
    lefts.sort(key=lambda it: -it.time)
    wanted = [it for it in lefts if not it.is_saved]
    kept = [it for it in wanted if not it.is_open][:KEPT]
    for it in lefts:
        if not it.is_open and it not in kept:
            removed(it.path)
    swept(file)
    return [it for it in wanted if it.is_open or it in kept]


def swept(file: str) -> None:
    """Removes what is left of journals whose session ended while it began them: no edit of theirs was accepted."""
    for path in glob.glob(os.path.join(glob.escape(folder()), f"{key_of(file)}-*.new")):
        try:
            number = os.open(path, os.O_RDONLY | os.O_NONBLOCK | os.O_CLOEXEC | os.O_NOFOLLOW)
        except OSError:
            continue
        try:
            fcntl.flock(number, fcntl.LOCK_EX | fcntl.LOCK_NB)
            removed(path)
        except BlockingIOError:
            pass
        finally:
            os.close(number)


def size_at(path: str) -> int:
    """How many bytes a file has; -1 where there is none."""
    try:
        return os.path.getsize(path)
    except OSError:
        return -1


def sum_at(path: str) -> str:
    """The sum of a file's bytes; the empty text where it can't be read."""
    try:
        return sum_of(read(path))
    except OSError:
        return ""


def sum_of(content: bytes) -> str:
    """The sum by which the bytes of a file are known."""
    return hashlib.sha256(content).hexdigest()


def when(seconds: float) -> str:
    """A time as a person reads it."""
    return time.strftime("%Y-%m-%d %H:%M", time.localtime(seconds))
