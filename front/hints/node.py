"""A value in a text in YAML: a mapping, a list or a text, with the place where it is."""
from __future__ import annotations

from typing import TYPE_CHECKING, List, NamedTuple, Optional, Tuple

if TYPE_CHECKING:
    from front.hints.outline import Outline


class Pair(NamedTuple):
    """A key of a mapping, where it begins, and its value."""

    key: str
    at: int
    value: Node


class Node:
    """A value: what it has is told by `pairs`, `items` and `text`; those of a block are found when they are asked for."""

    __slots__ = ("at", "stop", "text", "mark", "_kind", "_owner", "_row", "_contents")

    def __init__(self, at: int, stop: int, kind: str, text: str = "", mark: str = "", owner: Optional[Outline] = None, row: int = -1) -> None:
        """A value of a kind, from a place to another: a `map`, a `list`, a `text`, or `rows` of an outline, which are a mapping or a list."""
        self.at, self.stop, self.text, self.mark = at, stop, text, mark
        self._kind, self._owner, self._row = kind, owner, row
        self._contents: Optional[Tuple[List[Pair], List[Node]]] = None if owner else ([], [])

    def _found(self) -> Tuple[List[Pair], List[Node]]:
        """The pairs and items, found once."""
        if self._contents is None:
            self._contents = self._owner.contents(self._row)
        return self._contents

    @property
    def kind(self) -> str:
        """What it is: `map`, `list` or `text`."""
        if self._kind == "rows":
            self._kind = self._owner.kind(self._row)
        return self._kind

    @property
    def is_flow(self) -> bool:
        """Whether it is in braces or brackets."""
        return self.mark in ("{", "[") and self._kind != "text"

    @property
    def pairs(self) -> List[Pair]:
        """The keys of a mapping with their values."""
        return self._found()[0]

    @property
    def items(self) -> List[Node]:
        """The items of a list."""
        return self._found()[1]

    def between(self, begin: int, end: int) -> Tuple[List[Pair], List[Node]]:
        """The pairs and items that have something from a place to another."""
        if self._contents is None:
            return self._owner.between(self._row, begin, end)
        return self._contents

    def first(self, most: int) -> Tuple[List[Pair], List[Node]]:
        """The first of the pairs or items."""
        if self._contents is None:
            return self._owner.contents(self._row, most)
        return self._contents[0][:most], self._contents[1][:most]

    def get(self, key: str) -> Optional[Node]:
        """The value of the first key of this name; None where there is none."""
        if self._contents is None:
            return self._owner.value(self._row, key)
        return next((it.value for it in self.pairs if it.key == key), None)

    def has(self, key: str) -> bool:
        """Whether there is a key of this name."""
        return self.get(key) is not None

    def said(self, key: str) -> str:
        """The text of a key's value; the empty text where there is none."""
        found = self.get(key)
        return found.text if found else ""
