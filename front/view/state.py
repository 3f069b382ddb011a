"""What a screen shows, as a value: the sizes, the chosen node, what is open, the byte under the cursor, what is being typed."""
from dataclasses import dataclass, replace
from typing import FrozenSet, Optional, Tuple

# The least size of a screen that has room for both a tree and what is said of a node.
LEAST_ROWS, LEAST_COLUMNS = 10, 40


@dataclass(frozen=True)
class Typed:
    """A line that is being typed: what for, its text, and the place of the cursor in it."""

    purpose: str
    text: str = ""
    at: int = 0
    # Whether the text was put there for the person: then the first letter takes its place.
    is_offered: bool = False

    def after(self, key: str) -> "Typed":
        """The line after one more key."""
        if key in ("left", "right", "home", "end"):
            to = {"left": max(0, self.at - 1), "right": min(len(self.text), self.at + 1), "home": 0, "end": len(self.text)}[key]
            return replace(self, at=to, is_offered=False)
        if key == "ctrl-u":
            return replace(self, text=self.text[self.at :], at=0, is_offered=False)
        if key == "backspace" and self.at:
            return replace(self, text=self.text[: self.at - 1] + self.text[self.at :], at=self.at - 1, is_offered=False)
        if key == "delete":
            return replace(self, text=self.text[: self.at] + self.text[self.at + 1 :], is_offered=False)
        if len(key) != 1 or not key.isprintable():
            return replace(self, is_offered=False)
        if self.is_offered:
            return replace(self, text=key, at=1, is_offered=False)
        return replace(self, text=self.text[: self.at] + key + self.text[self.at :], at=self.at + 1)


@dataclass(frozen=True)
class Sought:
    """What was searched for last, as which kind, and as which bytes."""

    text: str
    kind: str
    wanted: bytes = b""


@dataclass(frozen=True)
class State:
    """A screen. `line` is the row of the tree's half in which the chosen node is, `top` the first byte that is shown."""

    rows: int = 24
    columns: int = 80
    half: str = "tree"
    path: str = "/"
    line: int = 0
    open: FrozenSet[str] = frozenset({"/"})
    place: int = 0
    top: int = 0
    digit: str = ""
    is_node: bool = True
    typed: Optional[Typed] = None
    message: str = ""
    sought: Optional[Sought] = None
    found: Tuple[int, int] = (0, 0)
    written: Tuple[int, int] = (0, 0)
    is_hex: bool = False
    back: Tuple[str, ...] = ()
    help_from: Optional[int] = None

    def told(self, message: str) -> "State":
        """With a message."""
        return replace(self, message=message)


def parent(path: str) -> str:
    """The path one step up; of the root the root."""
    return path.rpartition("/")[0] or "/"


def fronts(path: str) -> FrozenSet[str]:
    """All paths above one."""
    found = set()
    while path != "/":
        path = parent(path)
        found.add(path)
    return frozenset(found)
