"""Which values an expression of a description names: `_root.fats[0].next[number - 1]` is a path, found by questions."""
import re
from typing import Dict, Optional, Tuple

from front.follow import Follower
from front.look import Explorer, joined

NAME = re.compile(r"(?<![\w.\"'])[a-z_][a-z0-9_]*")
STEP = re.compile(r"\s*\.\s*([a-z_][a-z0-9_]*)(?![a-z0-9_]|\s*\()")
PLAIN = re.compile(r"\s*(-?(?:0x[0-9a-f]+|[0-9]+))\s*")
# Words of expressions that are no names, and how many brackets lie in one another.
WORDS, DEEPEST = {"and", "or", "not", "true", "false", "_", "_io", "_index", "_sizeof"}, 6


class Sources:
    """Finds what an expression names, from the object that it is in."""

    def __init__(self, explorer: Explorer, follower: Follower, home: str) -> None:
        self.explorer, self.follower, self.home = explorer, follower, home

    def named(self, text: str) -> Dict[str, str]:
        """The paths of what an expression names, each once, with how it is named there; without those within brackets."""
        found: Dict[str, str] = {}
        at = 0
        text = re.sub(r"\"[^\"]*\"|'[^']*'|[a-z_][a-z0-9_]*::[a-z_][a-z0-9_:]*", lambda it: " " * len(it[0]), text)
        while name := NAME.search(text, at):
            path, at = self.chain(text, name, 0)
            if path and path != "/":
                found.setdefault(path, text[name.start() : at])
        return found

    def chain(self, text: str, name: "re.Match[str]", depth: int) -> Tuple[Optional[str], int]:
        """The path of a chain of names and indices that begins at a name, as far as it can be followed; and where the chain ends."""
        path, at = self.step(self.home, name[0]) if name[0] not in WORDS else None, name.end()
        while True:
            more = STEP.match(text, at)
            close = closing(text, at) if text[at : at + 1] == "[" else -1
            if more:
                further = self.step(path, more[1]) if path else None
                if path and further is None:
                    return path, more.end()
                path, at = further, more.end()
            elif close > 0:
                index = self.number(text[at + 1 : close], depth + 1) if path and depth < DEEPEST else None
                path, at = self.step(path, str(index)) if path and index is not None else None, close + 1
            else:
                return path, at

    def step(self, path: str, name: str) -> Optional[str]:
        """The path one step further; None where there is nothing."""
        if name == "_root":
            return "/"
        if name == "_parent":
            return self.follower.parent(path)
        if name.startswith("_"):
            return None
        found = joined(path, name)
        told = self.explorer.ask(f"ls {found}")
        if told.startswith("error") or re.fullmatch(r"fault (no-such|bad-index) at " + re.escape(found), told):
            return None
        return self.follower.target(found) or found

    def number(self, text: str, depth: int) -> Optional[int]:
        """What is in brackets, where that is a number, or a name with a number added or taken away."""
        plain = PLAIN.fullmatch(text)
        if plain:
            return int(plain[1], 0)
        name = NAME.match(text.lstrip())
        if not name:
            return None
        text = text.lstrip()
        path, at = self.chain(text, name, depth)
        told = self.explorer.ask(f"get {path}") if path else ""
        value = re.fullmatch(r"(-?\d{1,20})|\S+ \((-?\d{1,20})\)", told)
        more = re.fullmatch(r"\s*(?:([-+])\s*([0-9]+))?\s*", text[at:])
        if not value or not more:
            return None
        return int(value[1] or value[2]) + (int(f"{more[1]}{more[2]}") if more[1] else 0)


def closing(text: str, at: int) -> int:
    """Where the bracket is closed that is opened at a place; -1 where it isn't."""
    depth = 0
    for place in range(at, len(text)):
        depth += (text[place] == "[") - (text[place] == "]")
        if depth == 0:
            return place
    return -1
