"""What is said below a reply: of a fault where it arose; of a name that isn't there, which ones are; of a mended value what it was before."""
import difflib
import re
from typing import Callable, List, Optional

from front.description import Description, Member
from front.hints.tokens import names
from front.look import Explorer
from front.lost import Lost
from front.mistaken import Mistaken, Room, room_at, room_of
from front.words import sent_words

# The faults of an expression that says where something is, or how much, and the keys of such expressions.
PLACED = ("bad-type", "overflow", "zero-divisor", "bad-index", "bad-size", "bad-number", "no-such", "no-parent")
KEYS = ("if", "pos", "io", "size", "repeat-expr", "repeat-until")
# The most names of members that are offered for one that isn't there.
OFFERED = 12


class Explainer:
    """Explains replies, by questions and by the text of the description."""

    def __init__(self, explorer: Explorer, description: Callable[[], Description], is_terminal: bool) -> None:
        self.explorer, self.description, self.is_terminal = explorer, description, is_terminal

    def explained(self, told: str, line: str) -> List[str]:
        """What is said below the reply to a line."""
        found = re.fullmatch(r"fault (\S+) at (\S+)", told)
        words = sent_words(line)
        is_value = not found and not told.startswith("error: ")
        if words[:1] == ["get"] and len(words) == 2 and is_value:
            was = Lost(self.description()).said(self.explorer, words[1], told)
            return [f"  {was}"] if was else []
        if told.startswith("error: ") and told != "error: bad path":
            said = Mistaken(self.explorer.session.size, self.room, self.value).said(told, line) if self.is_terminal else ""
            return [f"  ({said})"] if said else []
        if (told == "error: bad path" or found and found[1] == "no-such") and len(words) > 1:
            return self.lost(found[2] if found else words[1]) if self.is_terminal else []
        return self.fault(found[1], found[2]) if found else []

    def value(self, path: str) -> str:
        """The value at a path, or that it is calculated."""
        where = self.explorer.ask(f"at {path}")
        return where if where == "calculated" else self.explorer.ask(f"get {path}")

    def room(self, path: str) -> Optional[Room]:
        """The room of the integer at a path: by its type, where the description has one type for it, or else by its bits alone."""
        member = self.member(path)
        return (room_of(member.value.said("type")) if member else None) or room_at(self.explorer.ask(f"at {path}"))

    def fault(self, kind: str, path: str) -> List[str]:
        """Where a fault arose: a place, or an expression and what is `valid` there."""
        front = path.rpartition("/")[0]
        counted = re.fullmatch(r"\[(\d+)\]", self.explorer.ask(f"ls {front}")) if kind == "bad-index" and front else None
        if counted:
            return [f"  ({front} has {counted[1]} elements)"]
        where = self.explorer.ask(f"at {path}")
        if not where.startswith("fault"):
            value = self.said(path, "value") if where == "calculated" else ""
            valid = self.said(path, "valid") if kind == "invalid" else ""
            valid = "" if valid in ("", value) else f"; {valid}" if "valid: " in valid else f"; valid: {valid}"
            circle = self.circle(path) if kind == "circle" else ""
            return [f"  ({path} is {where}{': ' if value else ''}{value}{valid}{circle})"]
        if kind == "end-of-bytes":
            return [f"  ({self.window(path)}the file has {self.explorer.session.size()} bytes)"]
        made = "" if kind not in PLACED or kind == "bad-index" and re.search(r"/\d+\Z", path) else self.made(path)
        return [f"  ({path} has {made})"] if made else []

    def made(self, path: str) -> str:
        """The expressions that say whether something is at a path, where it is and how much; nothing where that can't be told."""
        member = self.member(path)
        if member is None or member.value.is_flow:
            return member.text("type") if member else ""
        kind = member.value.get("type")
        switch = kind.said("switch-on") if kind and kind.kind == "map" else ""
        with_arguments = member.text("type") if "(" in member.text("type") and not switch else ""
        said = [("switch-on", switch), *((key, member.text(key)) for key in KEYS), ("type", with_arguments)]
        return "; ".join(f"{key}: {' '.join(text.split())}" for key, text in said if text)

    def circle(self, path: str) -> str:
        """That the check of what is at a path names it, where it does: that is a circle."""
        member, name = self.member(path), re.sub(r"(?:/\d+)+$", "", path).rpartition("/")[2]
        check = member.value.get("valid") if member else None
        texts = [] if check is None else [one.text for it in check.pairs for one in (it.value.items or [it.value])] or [check.text]
        own = next((text for text in texts if any(it.kind == "member" and it.names == [name] for it in names(text))), "")
        return f"; its check names it, which is `_` in `expr`: {' '.join(own.split())}" if own else ""

    def window(self, path: str) -> str:
        """Where the innermost thing around a path that has an end is, if there is one that has: the bytes may end there."""
        while path.count("/") > 1:
            path = path.rpartition("/")[0]
            where = self.explorer.ask(f"at {path}")
            if where.startswith("at "):
                return f"{path} is {where}, "
        return ""

    def said(self, path: str, key: str) -> str:
        """What the description's text has for a key of what is at a path; nothing where that can't be told."""
        member = self.member(path)
        return member.text(key) if member else ""

    def member(self, path: str) -> Optional[Member]:
        """What the description's text has of what is at a path; None where that can't be told."""
        path = re.sub(r"(?:/\d+)+$", "", path)
        front, _, name = path.rpartition("/")
        kind = re.fullmatch(r"object (\S+)", self.explorer.ask(f"get {front or '/'}"))
        return self.description().member(kind[1] if front else None, name) if kind else None

    def lost(self, path: str) -> List[str]:
        """Of a path with a name that isn't there, which names are. A line that is sent as it is may have a path without `/` at its front, which is none."""
        front = ""
        if not path.startswith("/"):
            return []
        for step in path.split("/")[1:]:
            told = self.explorer.ask(f"ls {front or '/'}")
            names = told.split()[1:] if told.startswith("members") else []
            if told == "no members":
                return [f"  ({front} has no members)"]
            if step not in names and names:
                near = difflib.get_close_matches(step[:200], names, 3)
                more = f" .. ({len(names)})" if len(names) > OFFERED else ""
                return [f"  ({front or '/'} has no {step}; it has {' '.join(near or names[:OFFERED])}{' ..' if near else more})"]
            front += f"/{step}"
        return []
