"""The rows of a tree, one from the other: so only what is shown is asked for, however much there is above and below it."""
import re
from typing import FrozenSet, Iterator, List, Optional, Tuple

from front.look import Below, Explorer, joined
from front.view.replies import Replies
from front.view.state import State, fronts, parent

# How many questions may count the elements of a list that ends in a fault.
MOST_COUNTED = 200


class Tree:
    """What is below paths, and which row is above and below another. A path is open if it is in a set; for walks over all, each is."""

    def __init__(self, replies: Replies, opened: Optional[FrozenSet[str]]) -> None:
        self.replies, self.opened = replies, opened

    @classmethod
    def of(cls, state: State, replies: Replies) -> "Tree":
        """The tree that a screen shows: what is above the chosen node is open in any case."""
        return cls(replies, state.open | fronts(state.path))

    def below(self, path: str) -> Below:
        """The paths of what is in an object; a range of what is in a list."""
        return Explorer(self.replies, MOST_COUNTED).children(path)

    def shown_below(self, path: str) -> Below:
        """The same, or nothing where the path isn't open."""
        return self.below(path) if self.opened is None or path in self.opened else []

    def has_below(self, path: str) -> bool:
        """Whether something is below a path; for a list it is enough to know that it has a first element."""
        told = self.replies.ask(f"ls {path}")
        if told.startswith("fault"):
            return Explorer(self.replies).is_found(joined(path, 0))
        return told.startswith("members") and len(told.split()) > 1 or bool(re.fullmatch(r"\[[1-9]\d*\]", told))

    def has(self, path: str) -> bool:
        """Whether a path is of something that the tree has."""
        if path == "/":
            return True
        if not self.has(parent(path)):
            return False
        return at_in(self.below(parent(path)), path) is not None

    def next(self, path: str, is_below: bool = True) -> Optional[str]:
        """The row below another one, or the first one that isn't in it; None after the last."""
        below = self.shown_below(path) if is_below else []
        if below:
            return step_of(path, below, 0)
        while path != "/":
            front = parent(path)
            beside = self.below(front)
            at = at_in(beside, path)
            if at is not None and at + 1 < len(beside):
                return step_of(front, beside, at + 1)
            path = front
        return None

    def previous(self, path: str) -> Optional[str]:
        """The row above another one; None before the first."""
        if path == "/":
            return None
        front = parent(path)
        beside = self.below(front)
        at = at_in(beside, path)
        return self.last(step_of(front, beside, at - 1)) if at else front

    def last(self, path: str) -> str:
        """The last row of a path and what is in it."""
        while below := self.shown_below(path):
            path = step_of(path, below, len(below) - 1)
        return path

    def after(self, path: str) -> Iterator[str]:
        """All rows below another one."""
        while (path := self.next(path)) is not None:
            yield path

    def around(self, path: str, line: int, height: int) -> Tuple[List[str], int]:
        """As many rows as there are or are wanted, with one of them in a given line, if there is enough above and below it; and its line."""
        above: List[str] = []
        while len(above) < min(line, height - 1) and (found := self.previous(above[-1] if above else path)) is not None:
            above.append(found)
        rows = [*above[::-1], path]
        for it in self.after(path):
            if len(rows) >= height:
                break
            rows.append(it)
        while len(rows) < height and (found := self.previous(rows[0])) is not None:
            rows.insert(0, found)
        return rows, rows.index(path)

    def nearest(self, path: str) -> str:
        """A path, if the tree has it; else the last element before it, or what it was in."""
        at, steps = "/", [it for it in path.split("/") if it]
        for it in steps:
            below = self.below(at)
            found = joined(at, it)
            if at_in(below, found) is None:
                return step_of(at, below, len(below) - 1) if isinstance(below, range) and below and it.isdigit() else at
            at = found
        return at


def at_in(below: Below, path: str) -> Optional[int]:
    """Which of what is below a path another one is; None where it is none."""
    if isinstance(below, range):
        step = path.rpartition("/")[2]
        return int(step) if re.fullmatch(r"0|[1-9][0-9]{0,7}", step) and int(step) < len(below) else None
    return below.index(path) if path in below else None


def step_of(path: str, below: Below, at: int) -> str:
    """The path of one of what is below a path."""
    return joined(path, below[at]) if isinstance(below, range) else below[at]
