"""Where the values of members that are lost are used: in what is read, and in what is calculated."""
from __future__ import annotations

from typing import Dict, Iterable, List, NamedTuple, Optional, Set, Tuple

from front.mend.change import Mark
from front.mend.holders import Holders
from front.mend.whole import Body, Expression, Whole, expressions, told_at

# A member: the type that has it, and its name.
Key = Tuple[Body, str]


class Uses(NamedTuple):
    """The expressions that decide what is read, and those that are calculated."""

    deciding: List[Expression]
    calculated: List[Expression]


def uses(whole: Whole, lost: Iterable[Key]) -> Uses:
    """The expressions that may use members, by themselves or by what is calculated from them. A name after a point is taken for each member of that name where
    it can't be told which type has it; the element that may be the last one is `_`."""
    by_name: Dict[str, List[Tuple[Expression, Optional[Body]]]] = {}
    holders = Holders(whole)
    for field in whole.fields:
        for one in expressions(field):
            for name, holder in holders.named(one):
                by_name.setdefault(name, []).append((one, holder))
    seen: Set[Key] = set(lost)
    rest, found, deciding, calculated = list(seen), set(), [], []
    while rest:
        body, name = rest.pop()
        for one, holder in by_name.get(name, []):
            if holder not in (None, body) or id(one.node) in found and one.key != "argument":
                continue
            found.add(id(one.node))
            if one.key != "value":
                deciding.append(one)
                continue
            calculated.append(one)
            key = (one.field.body, one.field.name)
            if key not in seen:
                seen.add(key)
                rest.append(key)
    return Uses(deciding, sorted(calculated, key=lambda it: it.node.at))


def calculated_marks(whole: Whole, used: Uses, how: str) -> List[Mark]:
    """The marks of what is calculated; a block text has none."""
    return [Mark(told_at(whole.text, it.node.at, it.node), it.field.name, how) for it in used.calculated if it.node.mark not in ("|", ">")]


def told(whole: Whole, used: Uses, how: str) -> Tuple[str, ...]:
    """What is lost of what is calculated."""
    return tuple(f"line {whole.line(it.node.at)}: `{it.field.name}` {how}" for it in used.calculated)
