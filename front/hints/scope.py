"""The types of a description with what they declare, as far as its text can be read."""
from __future__ import annotations

import re
from typing import Dict, Iterator, List, NamedTuple, Optional, Sequence

from front.hints.node import Node

# How many of the members and types of one are looked at; ksv reads 256 members and 1,024 types.
MOST = 1100
IDENTIFIER = re.compile(r"[a-z][a-z0-9_]*\Z")


class Member(NamedTuple):
    """A parameter, an attribute or an instance: what it is, where its name is, and its value."""

    kind: str
    at: int
    value: Node


class Type:
    """A type: what it declares is found when it is asked for."""

    def __init__(self, name: str, node: Node, outer: Optional[Type] = None) -> None:
        """A type of a name in another one; the root has none around it."""
        self.name, self.node, self.outer = name, node, outer
        self._types: Optional[Dict[str, Type]] = None
        self._members: Optional[Dict[str, List[Member]]] = None

    @property
    def types(self) -> Dict[str, Type]:
        """The types in it."""
        if self._types is None:
            found = self.node.get("types")
            self._types = {it.key: Type(it.key, it.value, self) for it in (found.first(MOST)[0] if found else [])}
        return self._types

    @property
    def enums(self) -> Dict[str, Node]:
        """The enums in it."""
        found = self.node.get("enums")
        return {it.key: it.value for it in (found.pairs if found else [])}

    @property
    def members(self) -> Dict[str, List[Member]]:
        """The members by their names, in the order of the text of each list; more than one of a name where it is given twice."""
        if self._members is None:
            self._members = {}
            for kind in ("params", "seq"):
                found = self.node.get(kind)
                for count, it in enumerate(found.first(MOST)[1] if found else []):
                    named = next((pair for pair in it.pairs if pair.key == "id"), None)
                    name = named.value.text if named else f"_unnamed{count}" if kind == "seq" else ""
                    self._members.setdefault(name, []).append(Member(kind, named.at if named else it.at, it))
            found = self.node.get("instances")
            for pair in found.first(MOST)[0] if found else []:
                self._members.setdefault(pair.key, []).append(Member("instances", pair.at, pair.value))
        return self._members

    @property
    def parameters(self) -> List[str]:
        """The names of the parameters, in their order."""
        found = self.node.get("params")
        return [it.said("id") for it in (found.first(MOST)[1] if found else [])]

    @property
    def root(self) -> Type:
        """The outermost type."""
        return self.outer.root if self.outer else self

    def around(self) -> Iterator[Type]:
        """This type and those around it, from the inside outwards."""
        here: Optional[Type] = self
        while here:
            yield here
            here = here.outer

    def all(self, most: int) -> Iterator[Type]:
        """This type and those in it, as far as there are no more."""
        rest = [self]
        while rest and most > 0:
            here = rest.pop(0)
            most -= 1
            yield here
            rest += list(here.types.values())[:most]

    def find(self, names: Sequence[str]) -> Optional[Type]:
        """The type of a path, looked for from the inside outwards; the root by its id last."""
        found = next((it.types[names[0]] for it in self.around() if names[0] in it.types), None)
        if found is None and self.root.name and self.root.name == names[0]:
            found = self.root
        for it in names[1:]:
            found = found.types.get(it) if found else None
        return found

    def find_enum(self, names: Sequence[str]) -> Optional[Node]:
        """The enum of a path, whose first names are types."""
        if len(names) > 1:
            found = self.find(names[:-1])
            return found.enums.get(names[-1]) if found else None
        return next((it.enums[names[0]] for it in self.around() if names[0] in it.enums), None)

    def stated(self, key: str) -> str:
        """What `meta` states of this type or the nearest one around it; the empty text where none does."""
        for it in self.around():
            meta = it.node.get("meta")
            said = meta.said(key) if meta else ""
            if said and (key != "endian" or said in ("le", "be")):
                return said
        return ""

    @property
    def path(self) -> str:
        """How it is named from the root."""
        return f"{self.outer.path}::{self.name}" if self.outer and self.outer.outer else self.name


def members_of(enum: Node) -> List[str]:
    """The names that an enum gives to numbers."""
    return [it.value.said("id") if it.value.kind == "map" else it.value.text for it in enum.pairs]
