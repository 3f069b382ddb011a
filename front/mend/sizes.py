"""How many bytes an integer has, asked as other readers let it be asked: the number."""
from __future__ import annotations

import re
from typing import List, Optional

from front.mend.change import Change, Edit, Found, Mark, Need
from front.mend.whole import Field, Whole, expressions, extent, told_at

ASKED = re.compile(r"(?<![\w.])(?:([a-z]\w*)\s*\.\s*_sizeof\b|sizeof\s*<\s*(\w+)\s*>)")
INTEGER = re.compile(r"[us]([1248])(?:le|be)?\Z")


def known(whole: Whole) -> Found:
    """The numbers in all expressions that ask for them and have no text."""
    edits: List[Edit] = []
    marks: List[Mark] = []
    done = set()
    for field in whole.fields:
        own = {it.name: it for it in field.body.fields} if any("sizeof" in it.text for it in expressions(field)) else {}
        for it in expressions(field):
            if "sizeof" not in it.text or it.node.at in done or re.search(r"[\"']", it.text):
                continue
            done.add(it.node.at)
            sizes = [(one, size_of(one[2] or typed(own.get(one[1])))) for one in ASKED.finditer(whole.text, *extent(whole.text, it.node))]
            edits += [Edit(one.start(), one.end(), size) for one, size in sizes if size]
            if any(size for _, size in sizes) and it.node.mark not in ("|", ">"):
                marks.append(Mark(told_at(whole.text, it.node.at, it.node), field.name, f"was {' '.join(it.node.text.split())}"))
    return Change("how many bytes an integer has is written as a number", tuple(edits), tuple(marks)) if edits else Need()


def typed(field: Optional[Field]) -> str:
    """The type of a member that is one value; the empty text where there is none."""
    return field.said("type") if field and "repeat" not in field.keys else ""


def size_of(kind: str) -> str:
    """How many bytes an integer of a type has; the empty text for any other."""
    found = INTEGER.match(kind)
    return found[1] if found else ""
