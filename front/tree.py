"""The rows of a tree: each member with its place and value."""
from contextlib import contextmanager
from typing import Callable, Iterable, Iterator, List, Optional, Tuple

from front.follow import Follower
from front.look import ELEMENTS, Explorer, Spent, steps_of
from front.lost import Lost


class Tree:
    """A tree below a path, as far as a budget of questions lasts. Of a list it has some elements; the first list that was cut so is noted, with the next index."""

    def __init__(self, explorer: Explorer, follower: Follower, lost: Lost, shown: Callable[[str], str]) -> None:
        self.explorer, self.follower, self.lost, self.shown = explorer, follower, lost, shown
        self.rows: List[str] = []
        self.more: Optional[Tuple[str, int]] = None

    def below_all(self, paths: Iterable[str], depth: int) -> None:
        """Adds the rows of paths and of what is below them, as many steps down."""
        with self.ended():
            for it in paths:
                self.branch(it, depth, 0)

    def elements(self, path: str, start: int, depth: int) -> None:
        """Adds the rows of a list's elements from an index on."""
        with self.ended():
            self.inner(path, depth, 0, start)

    @contextmanager
    def ended(self) -> Iterator[None]:
        """Adds a note where the budget ends the rows."""
        try:
            yield
        except Spent:
            self.rows.append(f"  (the tree ends here, after {self.explorer.num_asked()} questions)")

    def branch(self, path: str, depth: int, level: int) -> None:
        """The row of one path, and those below it. A value instance that is an object is followed to where that is."""
        name = path.rsplit("/", 1)[1] or "/"
        told, where = self.explorer.value(path), self.explorer.ask(f"at {path}")
        place = where[3:].replace(" ", "-") if where.startswith("at ") else "" if where.startswith("fault") else where
        shown = "" if where == "absent" and told == f"fault absent at {path}" else self.shown(told)
        target = self.follower.target(path) if where == "calculated" and told.startswith("object ") else None
        was = self.lost.said(self.explorer, path, told)
        self.rows.append(f"{'  ' * level + name:<28} {place:<14} {shown}{f' at {target}' if target else ''}{f'  {was}' if was else ''}".rstrip())
        if depth and told.startswith(("object ", "[", "fault ")):
            self.inner(target or path, depth, level + 1, 0, told.startswith("fault"))

    def inner(self, path: str, depth: int, level: int, start: int, is_broken: bool = False) -> None:
        """The rows of what is in an object, or in a list from an index on."""
        below = self.explorer.children(path)
        for it in steps_of(path, below[start : start + ELEMENTS] if isinstance(below, range) else below):
            self.branch(it, depth - 1, level)
        more = len(below) - start - ELEMENTS if isinstance(below, range) else 0
        if more > 0:
            self.more = self.more or (path, start + ELEMENTS)
            self.rows.append(f"{'  ' * level}and {more} more{' before the fault' if is_broken else ''}")
