"""Which case of a switch a member is read by: the expression that chooses is followed where it is a chain of names, and its value compared with the cases."""
from __future__ import annotations

import re
from typing import Optional

from front.description import Description, Member
from front.follow import Follower
from front.hints.node import Node
from front.look import Explorer

NUMBER = re.compile(r"-?(?:0[xX][0-9a-fA-F_]+|0[bB][01_]+|[0-9][0-9_]*)\Z")
MEMBER = re.compile(r"(?!\")(\S+::\S+) \(-?[0-9]+\)\Z")


class Switch:
    """Finds the case that is chosen, by questions and by the text of the description."""

    def __init__(self, explorer: Explorer, description: Description) -> None:
        self.explorer, self.description = explorer, description

    def chosen(self, member: Member, home: str) -> Optional[str]:
        """The key of the case by which a member of the object at a path is read; None where it has no cases, or that can't be told."""
        cases = cases_of(member)
        if cases is None:
            return None
        path = Follower(self.explorer, self.description).chain(member.value.get("type").said("switch-on"), home, 20)
        told = self.explorer.ask(f"get {path}") if path else "fault"
        if told.startswith(("fault", "error")):
            return None
        keys = [it.key for it in cases.pairs]
        return next((it for it in keys if it != "_" and is_same(it, told)), "_" if "_" in keys else None)


def cases_of(member: Member) -> Optional[Node]:
    """The cases of a member's switch; None where it has none."""
    kind = None if member.value.is_flow else member.value.get("type")
    return kind.get("cases") if kind and kind.kind == "map" else None


def is_same(key: str, told: str) -> bool:
    """Whether the key of a case is a value, by the reply of `get`."""
    if NUMBER.match(key):
        return bool(re.fullmatch(r"-?[0-9]+", told)) and int(key, 0) == int(told)
    named = MEMBER.match(told)
    return key == told if not named else "::".join(key.split("::")[-2:]) == named[1]
