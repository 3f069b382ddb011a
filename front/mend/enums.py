"""A check that a number has a name in its enum, and other checks of it: the members written out."""
from __future__ import annotations

from typing import List

from front.hints.scope import members_of
from front.mend.change import Change, Edit, Found, Mark, Need
from front.mend.library import MOST
from front.mend.whole import Whole, keyed
from front.mend.written import last


def members(whole: Whole) -> Found:
    """`any-of` with the members of the enum, in place of `in-enum`."""
    edits: List[Edit] = []
    marks: List[Mark] = []
    size = len(whole.text)
    for field in whole.fields:
        check = field.keys["valid"].value if "valid" in field.keys else None
        pair = keyed(check).get("in-enum")
        if pair is None:
            continue
        enum = field.body.find_enum(field.said("enum")) if "enum" in field.keys else None
        if enum is None or pair.value.text != "true" or len(check.pairs) > 1 or not enum.pairs:
            return Need(f"line {whole.line(pair.at)}: no enum tells which members there are")
        names = members_of(enum)
        size += sum(map(len, names)) + len(names) * (len(field.said("enum")) + 4)
        if size > MOST:
            return Need("with all members it would have more than 262,144 bytes")
        edits.append(Edit(pair.at, last(whole.text, pair) if not check.is_flow else pair.value.stop, any_of(field.said("enum"), names)))
        marks.append(Mark(pair.at, field.name, "was in-enum"))
    return Change("`in-enum` isn't read: the members of the enum are written out", tuple(edits), tuple(marks)) if edits else Need()


def any_of(enum: str, names: List[str]) -> str:
    """A check that a value is one of some members."""
    return f"any-of: [{', '.join(f'{enum}::{it}' for it in names)}]"
