"""Saving: what a session holds goes to OUT in the program's own way, by a process of it with `--save` that gets these bytes and no edits.

That process alone writes OUT, and it gives OUT the new bytes as a whole: at each moment OUT is old or new, also where it or the shell is killed.
"""
import os
import select
import subprocess
import time
from dataclasses import dataclass
from typing import Callable, Dict, Optional

from front.copies import Copy, kind_of, read
from front.session import Died, begun
from front.signals import Signals

# How long a save that is broken off may go on, in seconds, before its process is ended.
PATIENCE = 3.0


@dataclass(frozen=True)
class Look:
    """What a file looked like: another one is there, or it was written, if it looks otherwise."""

    device: int
    number: int
    size: int
    changed: int


# How a file looks that is known to be another one than what was opened.
CHANGED = Look(-1, -1, -1, -1)


def look_of(path: str) -> Optional[Look]:
    """How a file looks; None where there is none."""
    try:
        found = os.stat(path)
    except (OSError, ValueError):
        return None
    return Look(found.st_dev, found.st_ino, found.st_size, found.st_mtime_ns)


def has(path: str, content: bytes) -> bool:
    """Whether a file has these bytes."""
    try:
        return os.path.getsize(path) == len(content) and read(path, len(content) + 1) == content
    except OSError:
        return False


class NotSaved(Exception):
    """A save that failed, or that wants to be asked for again; why."""


class Saver:
    """Saves to files, and knows how those looked that it opened or saved to, by all of their names. Before a save, `begins` gets the bytes and the file."""

    def __init__(self, program: str, ksy: Copy, signals: Signals) -> None:
        self.program, self.ksy, self.signals = program, ksy, signals
        self.begins: Callable[[bytes, str], None] = lambda content, out: None
        self._known: Dict[str, Optional[Look]] = {}
        self._asked: Dict[str, Optional[Look]] = {}
        # where names led when they were used, by the names as they were given
        self._led: Dict[str, str] = {}

    @staticmethod
    def is_same(one: str, other: str) -> bool:
        """Whether two names are of one file, by links or otherwise."""
        try:
            return os.path.realpath(one) == os.path.realpath(other) or os.path.samefile(one, other)
        except OSError:
            return False

    def know(self, path: str, look: Optional[Look]) -> None:
        """Notes how a file looked when it was opened or saved."""
        real = self._led[os.path.abspath(path)] = os.path.realpath(path)
        self._known[real] = look

    def is_as_known(self, out: str, look: Optional[Look]) -> bool:
        """Whether a file looks as it was known to, if it was; also where it was known by another name, or the name led to another one."""
        path = os.path.realpath(out)
        if self._led.get(os.path.abspath(out), path) != path:
            return False
        if path in self._known:
            return self._known[path] == look
        near = [it for it in self._known.values() if it and look and (it.device, it.number) == (look.device, look.number)]
        return not near or look in near

    def check(self, out: str) -> None:
        """Whether a file is as it was known; where it isn't, that is said once, and a second save goes through."""
        path, look = os.path.realpath(out), look_of(out)
        if self.is_as_known(out, look) or path in self._asked and self._asked[path] == look:
            return
        self._asked[path] = look
        what = "is gone" if look is None else "is there by now" if self._known.get(path, look) is None else "isn't as it was when it was opened or last saved"
        raise NotSaved(f"{out} {what}: the same `save` once more {'saves over it' if look else 'makes it anew'}")

    def save(self, content: bytes, out: str) -> None:
        """Gives a file these bytes, or says why not. What isn't a file isn't written: it might wait for a reader, or be a disk."""
        if kind_of(out):
            raise NotSaved(f"{out}: cannot write: {barrier(out)}")
        self.check(out)
        self.begins(content, out)
        with Copy(content) as copy:
            try:
                status, message = self.run(copy, out)
            except Died as error:
                raise NotSaved(str(error)) from error
        if status == 3 and has(out, content):
            self.know(out, look_of(out))
        if status and not (status < 0 and has(out, content)):
            raise NotSaved(message or f"ksv ended by signal {-status} while it saved: {out} has its old bytes")
        if not has(out, content):
            raise NotSaved(f"{out} was written by another program at the same time")
        self.know(out, look_of(out))
        self._asked.pop(os.path.realpath(out), None)

    def run(self, copy: Copy, out: str) -> tuple:
        """The status and message of the process that saves. Where it is broken off, it may go on for a while, and is then ended."""
        how = {"stdin": subprocess.DEVNULL, "stdout": subprocess.DEVNULL, "stderr": subprocess.PIPE}
        running = begun(self.program, [f"--save={out}", "--", copy.path, self.ksy.path], (copy, self.ksy), **how)
        told, until = b"", None
        with running.stderr as pipe:
            while True:
                ready = select.select([pipe, self.signals.wake], [], [], None if until is None else max(0.0, until - time.monotonic()))[0]
                if pipe in ready:
                    piece = os.read(pipe.fileno(), 4096)
                    told += piece
                    if not piece:
                        break
                    continue
                self.signals.drain()
                if until is None:
                    until = time.monotonic() + PATIENCE if self.signals.is_asked() else None
                elif time.monotonic() >= until:
                    running.kill()
                    until = time.monotonic() + PATIENCE
        status = running.wait()
        message = told.decode(errors="replace").strip()
        reason = (barrier(out) or room_in(os.path.dirname(os.path.realpath(out)))) if status == 3 else ""
        return status, f"{message}: {reason}" if reason else message


def barrier(out: str) -> str:
    """Why a file can't be written, as far as it can be seen before; the empty text where nothing is seen."""
    place = os.path.dirname(os.path.realpath(out))
    if kind_of(out) or out.endswith("/"):
        return f"it is {kind_of(out) or 'a folder'}"
    if not os.path.isdir(place):
        named = os.path.dirname(out) or "."
        return f"there is no folder {place if os.path.isdir(named) else named}"
    if os.path.exists(out) and not os.access(out, os.W_OK):
        return "it may not be written"
    if not os.access(place, os.W_OK | os.X_OK):
        return "no file may be made in its folder"
    return ""


def room_in(place: str) -> str:
    """What is wrong where a file could be made: no room, most likely; the empty text where nothing is seen."""
    try:
        found = os.statvfs(place)
    except OSError as error:
        return error.strerror or str(error)
    if found.f_flag & os.ST_RDONLY:
        return "its disk can only be read"
    return "its disk is full" if found.f_bavail == 0 else ""
