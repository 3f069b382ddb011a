"""What the text of a description has of a member: `Description(text).member("entry", "len")`, or None for the root's type.

A description is read once, when a member is asked for first, in time linear in its length; each member that is asked for costs what is in it:

    from front.description import Description
    description = Description(text)
    found = description.member("entry", "len")
    if found:
        print(found.line, found.text("valid"))

The name of a type is that of the reply `object NAME`, the name of a member the last step of its path that is no index. A name that is in more than one place,
as where two types of this name have it, is None: the text can't tell which is meant.
"""
from __future__ import annotations

import re
from dataclasses import dataclass
from typing import Dict, List, Optional, Tuple

from front.hints.node import Node, Pair
from front.hints.outline import COMMENT, Outline


@dataclass(frozen=True)
class Member:
    """A parameter, an attribute of `seq` or an instance: the line where it begins, from 1, and its value in the text."""

    line: int
    value: Node
    source: str

    def text(self, key: str) -> str:
        """What a key of the member says; of a member in braces all that is in them; the empty text where it has no such key."""
        if self.value.is_flow:
            return " ".join(self.source[self.value.at + 1 : self.value.stop - 1].split())
        found = self.value.get(key)
        if not found:
            return ""
        if found.kind == "text":
            return found.text if found.mark != '"' else self.source[found.at : found.stop]
        lines = [bare(it) for it in self.source[found.at : found.stop].split("\n")]
        return (", " if key == "valid" and not found.is_flow else " ").join(it for it in lines if it)


class Description:
    """The members of a description's types, found in its text."""

    def __init__(self, text: str) -> None:
        self.text = text
        self._read: Optional[Tuple[Outline, Dict[str, List[Node]]]] = None
        self._members: Dict[Node, Dict[str, List[Tuple[int, Node]]]] = {}

    @property
    def _outline(self) -> Outline:
        """The text's outline."""
        return self._found()[0]

    @property
    def _types(self) -> Dict[str, List[Node]]:
        """The types by their names."""
        return self._found()[1]

    def _found(self) -> Tuple[Outline, Dict[str, List[Node]]]:
        """The text's outline and the names of its types, which are read once."""
        if self._read is None:
            self._read = Outline(self.text), {}
            rest = [self._read[0].root]
            while rest:
                for it in _entries(rest.pop(), "types"):
                    self._read[1].setdefault(it.key, []).append(it.value)
                    rest.append(it.value)
        return self._read

    def member(self, type_name: Optional[str], name: str) -> Optional[Member]:
        """A member of the types of a name, of the root for None; None where there is none, or it is in more than one place."""
        found = [it for one in self._named(type_name) for it in self._of(one).get(name, [])]
        if len(found) != 1:
            return None
        at, value = found[0]
        return Member(self._outline.line(at), value, self._outline.text)

    def number_of(self, enum: str, name: str) -> Optional[int]:
        """The number of a member of the enums of a name; None where there is none, or another one in another enum."""
        found = set()
        for one in [self._outline.root, *(it for named in self._types.values() for it in named)]:
            for it in _entries(one, "enums"):
                if it.key == enum:
                    found |= {pair.key for pair in it.value.pairs if name in (pair.value.text, pair.value.said("id"))}
        numbers = {int(it, 0) for it in found if re.fullmatch(r"-?(?:0x[0-9a-fA-F]{1,16}|0|[1-9][0-9]{0,19})", it)}
        return numbers.pop() if len(numbers) == 1 else None

    def _named(self, type_name: Optional[str]) -> List[Node]:
        """The types of a name: those under `types`, or else the root, which has its own `id`."""
        root = self._outline.root
        if type_name is None:
            return [root]
        meta = root.get("meta")
        return self._types.get(type_name) or ([root] if meta and meta.said("id") == type_name else [])

    def _of(self, one: Node) -> Dict[str, List[Tuple[int, Node]]]:
        """The members of a type by their names, each with where it begins, which are found once."""
        if one not in self._members:
            known = self._members[one] = {}
            for it in _entries(one, "instances"):
                known.setdefault(it.key, []).append((it.at, it.value))
            for key in ("params", "seq"):
                found = one.get(key)
                for count, it in enumerate(found.items if found else []):
                    known.setdefault(it.said("id") or f"_unnamed{count}", []).append((it.at, it))
        return self._members[one]


def bare(line: str) -> str:
    """A line without its comment, where no quote may hide one."""
    is_plain = '"' not in line and "'" not in line
    return ("" if line.lstrip().startswith("#") else COMMENT.split(line, 1)[0] if is_plain else line).strip()


def _entries(one: Node, key: str) -> List[Pair]:
    """The entries of the mapping that a key of a type has."""
    found = one.get(key)
    return found.pairs if found else []
