"""The edits of a session as a value: what holds, what was taken back, and which state of the bytes is saved.

An edit is one line that a person wrote, and the lines of bytes (`set`, `ins`, `del`, `app`) that it amounts to, done as a whole or not at all. The bytes
of a session are those of its file after the lines of all edits that hold: nothing else says what they are.
"""
from dataclasses import dataclass, replace
from typing import Iterator, List, Optional, Tuple


@dataclass(frozen=True)
class Edit:
    """An edit that was accepted. Without an inverse it is taken back by beginning anew without it."""

    line: str
    effect: Tuple[str, ...]
    inverse: Optional[Tuple[str, ...]] = None


@dataclass(frozen=True)
class Made:
    """An edit, what came before it, and the number of the state of the bytes after it: each state has its own."""

    edit: Edit
    version: int
    before: Optional["Made"]


@dataclass(frozen=True)
class Undone:
    """An edit that was taken back, and those taken back before it."""

    edit: Edit
    version: int
    before: Optional["Undone"]


@dataclass(frozen=True)
class Edits:
    """All edits of a session. State 0 is the file as it was opened."""

    last: Optional[Made] = None
    undone: Optional[Undone] = None
    saved: int = 0
    greatest: int = 0

    @property
    def version(self) -> int:
        """The number of the state of the bytes as they are."""
        return self.last.version if self.last else 0

    def made(self, edit: Edit, version: Optional[int] = None) -> "Edits":
        """With one more edit, after which the state has a new number, or this one; those that were taken back are forgotten."""
        number = self.greatest + 1 if version is None else version
        return replace(self, last=Made(edit, number, self.last), undone=None, greatest=max(number, self.greatest))

    def taken_back(self) -> "Edits":
        """Without the last edit."""
        last = self.last
        return replace(self, last=last.before, undone=Undone(last.edit, last.version, self.undone))

    def again(self) -> "Edits":
        """With the edit that was taken back last."""
        undone = self.undone
        return replace(self, last=Made(undone.edit, undone.version, self.last), undone=undone.before)

    def marked_saved(self, version: int) -> "Edits":
        """Where a state is saved."""
        return replace(self, saved=version)

    def is_saved(self) -> bool:
        """Whether the bytes are those of the last save, or of the file where nothing was saved."""
        return self.version == self.saved

    def holding(self) -> List[Made]:
        """The edits that hold, the first one first."""
        found, at = [], self.last
        while at:
            found.append(at)
            at = at.before
        return found[::-1]

    def lines(self) -> Iterator[str]:
        """The lines that make the bytes from those of the file."""
        for it in self.holding():
            yield from it.edit.effect

    def taken_away(self) -> List[Undone]:
        """The edits that `redo` can make again, the one first that it makes first."""
        found, at = [], self.undone
        while at:
            found.append(at)
            at = at.before
        return found

    def num_undone(self) -> int:
        """How many edits `redo` can make again."""
        return len(self.taken_away())


def edits_of(count: int) -> str:
    """A number of edits, in words."""
    return f"{count} edit{'' if count == 1 else 's'}"
