"""The files that a description may import: those below its own folder and below other ones."""
from __future__ import annotations

import os
import stat
from typing import List, NamedTuple, Optional, Sequence

# The most bytes of a file that is read, and of a description that is changed.
MOST = 262_144


class File(NamedTuple):
    """A file that was found: its place, by which it is known, what it is called, and its text."""

    place: str
    name: str
    text: str


class Library:
    """The folders below which files are looked for."""

    def __init__(self, folder: str, others: Sequence[str]) -> None:
        """The folder of the description, and further ones."""
        self.folders: List[str] = [os.path.realpath(it) for it in (folder, *others)]

    def find(self, name: str, folder: str) -> Optional[File]:
        """The file of a name that a description in a folder imports; None where there is none below the folders."""
        starts = self.folders if name.startswith("/") else [folder, *self.folders]
        for start in starts:
            path = os.path.realpath(os.path.join(start, name.lstrip("/") + ".ksy"))
            inside = next((it for it in self.folders if path.startswith(os.path.join(it, ""))), None)
            text = read(path) if inside else None
            if text is not None:
                return File(path, os.path.relpath(path, inside), text)
        return None


def read(path: str) -> Optional[str]:
    """The text of a plain file that isn't too long; None where there is none."""
    try:
        number = os.open(path, os.O_RDONLY | os.O_NONBLOCK | os.O_CLOEXEC)
    except (OSError, ValueError):
        return None
    with open(number, "rb") as file:
        if not stat.S_ISREG(os.fstat(number).st_mode):
            return None
        try:
            content = file.read(MOST + 1)
            return content.decode() if len(content) <= MOST else None
        except (OSError, UnicodeDecodeError):
            return None
