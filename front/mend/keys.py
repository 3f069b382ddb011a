"""Keys that are misspelt, or change no meaning."""
from __future__ import annotations

from typing import Dict, Iterator, List, Tuple

from front.hints import keys, schema
from front.hints.kinds import Hint
from front.hints.node import Node, Pair
from front.mend.change import Change, Edit, Found, Mark, Need
from front.mend.said import values
from front.mend.whole import Field, Whole, keyed, told_at
from front.mend.written import without

# How many keys that aren't known are looked at in one round.
MOST = 300


def mappings(whole: Whole) -> Iterator[Tuple[Node, str]]:
    """The mappings whose keys are fixed, with their kinds."""
    for body in whole.bodies:
        yield body.node, "type"
        if "meta" in body.keys:
            yield body.keys["meta"].value, "meta"
        params = body.value("params")
        yield from ((it, "parameter") for it in (params.items if params is not None else []))
        for field in body.fields:
            yield from of_field(field)
        for enum in body.enums.values():
            yield from ((it.value, "entry") for it in enum.pairs if it.value.kind == "map")


def of_field(field: Field) -> Iterator[Tuple[Node, str]]:
    """The mappings of a field."""
    yield field.node, field.role
    for key, role in (("type", "switch"), ("valid", "valid")):
        if key in field.keys and field.keys[key].value.kind == "map":
            yield field.keys[key].value, role


def mended(whole: Whole) -> Found:
    """Keys with the one name that is near, and without those that change no meaning."""
    edits: List[Edit] = []
    marks: List[Mark] = []
    known: Dict[Tuple[str, str, str], Hint] = {}
    for node, role in mappings(whole):
        gone = []
        for it in node.pairs if node.kind == "map" else []:
            if schema.is_known(role, it.key) or len(known) >= MOST:
                continue
            what = it.key, role, it.value.kind if it.value.kind != "text" or it.value.text else ""
            if what not in known:
                known[what] = keys.of_key(it.key, role, node, "", it.value) or Hint("", "")
            hint = known[what]
            written = name_for(hint)
            if written and written not in keyed(node):
                edits.append(Edit(it.at, it.at + key_length(whole.text, it), written))
                marks += [Mark(told_at(whole.text, it.at, it.value), "", f"was {it.key}")] if not it.value.mark or it.value.mark not in "|>" else []
            elif means_nothing(hint, role, it.key):
                gone.append(it.key)
        found = without(whole.text, node, gone) if gone else None
        edits, marks = (edits + found[0], marks + found[1]) if found else (edits, marks)
    return Change("keys that are misspelt or change no meaning", tuple(edits), tuple(marks)) if edits else Need()


def name_for(hint: Hint) -> str:
    """The name that a misspelt key has; the empty text where none is near."""
    if hint.kind in ("near key", "key as written"):
        return values(hint).get("near", "")
    return "doc" if hint.kind == "other word" and values(hint).get("near") == "doc" else ""


def means_nothing(hint: Hint, role: str, key: str) -> bool:
    """Whether a key changes no meaning, wherever other readers have it."""
    return hint.kind == "unread key" and key not in ("parent",) or role == "meta" and not hint.kind


def key_length(text: str, pair: Pair) -> int:
    """How long a key is in the text, with its quotes."""
    return len(pair.key) + (2 if text[pair.at : pair.at + 1] in ("'", '"') else 0)
