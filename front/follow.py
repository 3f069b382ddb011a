"""Where a value instance points whose value is an object: the program says only `object T` of it, so its expression in the description is followed here.

Only what is a chain of names and indices is followed: `_root.pages[2].tree`, `_parent.chain[number - 1]`. An index may be a number or such a chain that is an
integer, with a number added or taken away.
"""
import re
from typing import List, Optional

from front.description import Description
from front.look import Explorer, joined

# How many instances lead on to others before it is given up.
MOST = 20
STEP = re.compile(r"\s*(?:\.?\s*([a-z_][a-z0-9_]*)|\[([^\[\]]*)\])")
INDEX = re.compile(r"\s*([a-z_0-9.\s]+?)\s*(?:([-+])\s*([0-9]+)\s*)?")


class Follower:
    """Follows expressions, by questions and by the text of the description."""

    def __init__(self, explorer: Explorer, description: Description) -> None:
        self.explorer, self.description = explorer, description

    def target(self, path: str, most: int = MOST) -> Optional[str]:
        """The path of the object that a value instance is; None where it is none, or that can't be told."""
        if most == 0 or self.explorer.ask(f"at {path}") != "calculated" or not self.explorer.ask(f"get {path}").startswith("object "):
            return None
        front, _, name = path.rpartition("/")
        kind = re.fullmatch(r"object (\S+)", self.explorer.ask(f"get {front or '/'}"))
        member = self.description.member(kind[1] if front else None, name) if kind else None
        return self.chain(member.value.said("value"), front or "/", most - 1) if member else None

    def chain(self, text: str, home: str, most: int) -> Optional[str]:
        """The path that a chain of names leads to from the object that it is in."""
        steps = self.steps(text)
        if not steps:
            return None
        path = home
        for name, index in steps:
            path = self.further(path, name, index, home, most) if path else None
        return path

    def further(self, path: str, name: str, index: str, home: str, most: int) -> Optional[str]:
        """One step of a chain from a path on."""
        if name == "_root":
            return "/"
        if name == "_parent":
            return self.parent(path)
        step = name or self.index(index, home, most)
        if step is None:
            return None
        found = joined(path, step)
        return self.target(found, most) or found

    def parent(self, path: str) -> Optional[str]:
        """The object that an object is in: lists on the way don't count."""
        while path != "/":
            path = path.rpartition("/")[0] or "/"
            if self.explorer.ask(f"get {path}").startswith("object "):
                return path
        return None

    def index(self, text: str, home: str, most: int) -> Optional[str]:
        """The number that an index is."""
        found = INDEX.fullmatch(text)
        if not found:
            return None
        if re.fullmatch(r"[0-9]+", found[1]):
            number = int(found[1])
        else:
            path = self.chain(found[1], home, most)
            told = self.explorer.ask(f"get {path}") if path else ""
            if not re.fullmatch(r"-?[0-9]{1,20}", told):
                return None
            number = int(told)
        number += int(f"{found[2]}{found[3]}") if found[2] else 0
        return str(number) if number >= 0 else None

    @staticmethod
    def steps(text: str) -> List[tuple]:
        """The steps of a chain: each a name or an index; none where the text is another expression."""
        found, at, text = [], 0, text.strip()
        while at < len(text):
            step = STEP.match(text, at)
            if not step or bool(step[1]) and bool(found) and not text[at:].lstrip().startswith("."):
                return []
            found.append((step[1] or "", step[2] or ""))
            at = step.end()
        return found if found and found[0][0] else []
