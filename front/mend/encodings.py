"""Encodings that aren't read: another way to write one that is, or the bytes in place of the text."""
from __future__ import annotations

from typing import List, Optional, Tuple

from front.mend.change import Change, Edit, Found, Mark, Need
from front.mend.uses import calculated_marks, told, uses
from front.mend.whole import Body, Field, Whole, span, told_at
from front.mend.written import flow_without, without

READ = ("ascii", "utf-8")
OTHER_NAMES = {"utf8": "UTF-8", "utf_8": "UTF-8", "us-ascii": "ASCII", "us_ascii": "ASCII", "usascii": "ASCII", "ascii7": "ASCII"}
WIDE = ("utf-16", "utf-32", "utf16", "utf32", "ucs-2", "ucs2", "ucs-4", "ucs4")


def renamed(whole: Whole) -> Found:
    """Encodings that are read, with the name that ksv has for them."""
    edits: List[Edit] = []
    marks: List[Mark] = []
    nodes = [(it.meta["encoding"].value, "") for it in whole.bodies if "encoding" in it.meta]
    nodes += [(it.keys["encoding"].value, it.name) for it in whole.fields if "encoding" in it.keys]
    for node, name in nodes:
        place = span(whole.text, node)
        if node.text.lower() in OTHER_NAMES and place:
            edits.append(Edit(*place, OTHER_NAMES[node.text.lower()]))
            marks.append(Mark(node.at, name, f"was {node.text}"))
    return Change("an encoding has one name", tuple(edits), tuple(marks)) if edits else Need()


def is_unread(encoding: str) -> bool:
    """Whether an encoding isn't read, and is none that is written otherwise."""
    return bool(encoding) and encoding.lower() not in READ and encoding.lower() not in OTHER_NAMES


def raw(whole: Whole) -> Found:
    """The bytes of texts whose encoding isn't read."""
    edits: List[Edit] = []
    marks: List[Mark] = []
    losses: List[str] = []
    lost = []
    for field in whole.fields:
        own, kind = field.said("encoding"), field.said("type")
        encoding = own or field.body.stated("encoding")
        if kind in ("str", "strz") and is_unread(encoding):
            found = as_bytes(whole, field, encoding)
            lost.append((field.body, field.name))
            losses += [f"line {whole.line(field.at)}: `{field.name}` isn't checked any more"] if "valid" in field.keys else []
        else:
            found = without(whole.text, field.node, ["encoding"]) if is_unread(own) else ([], [])
        if not found:
            return Need(f"line {whole.line(field.at)}: where the bytes of this text end can't be told without its encoding")
        edits, marks = edits + found[0], marks + found[1]
    for body in whole.bodies:
        if "encoding" in body.meta and is_unread(body.meta["encoding"].value.text):
            found = without_meta(whole, body, "encoding")
            if not found:
                return Need()
            edits, marks = edits + found[0], marks + found[1]
    used = uses(whole, lost)
    if used.deciding:
        return Need(f"line {whole.line(used.deciding[0].node.at)}: a text in an encoding that isn't read decides what is read")
    marks += calculated_marks(whole, used, "uses bytes for a text")
    losses += told(whole, used, "uses the bytes, and not the text")
    return Change("only ASCII and UTF-8 are read: the bytes are, in place of the text", tuple(edits), tuple(marks), tuple(losses))


def as_bytes(whole: Whole, field: Field, encoding: str) -> Optional[Tuple[List[Edit], List[Mark]]]:
    """The edits that make bytes of a text; None where their end can't be told."""
    is_wide, is_sized = encoding.lower().startswith(WIDE), "size" in field.keys or field.said("size-eos") == "true"
    is_ended = field.said("type") == "strz" or "terminator" in field.keys
    if is_wide and is_ended and not is_sized:
        return None
    lost = ["type", "encoding"] + (["terminator", "consume", "include"] if is_wide and is_ended else [])
    first = None if field.role == "instance" else next((it for it in field.node.pairs if it.key not in (*lost, "valid")), None)
    at = field.node.stop if field.node.is_flow else told_at(whole.text, first.at, first.value) if first else field.at
    mark = Mark(at, field.name, f"was {field.said('type')} {encoding}")
    adds = "terminator: 0" if field.said("type") == "strz" and not is_wide and "terminator" not in field.keys else ""
    if field.node.is_flow:
        return [flow_without(whole.text, field.node, [*lost, "valid"], [adds] if adds else [])], [mark]
    place, check = span(whole.text, field.keys["type"].value), without(whole.text, field.node, ["valid"]) or ([], [])
    if adds and place:
        found = without(whole.text, field.node, ["encoding"], False) or ([], [])
        return [Edit(field.keys["type"].at, place[1], adds), *found[0], *check[0]], [mark, *check[1]]
    found = without(whole.text, field.node, lost, False)
    return ([*found[0], *check[0]], [mark, *check[1]]) if found and place else None


def without_meta(whole: Whole, body: Body, key: str) -> Optional[Tuple[List[Edit], List[Mark]]]:
    """The edits that take a key out of a type's `meta`, or all of that where it has no other."""
    node = body.keys["meta"].value
    return without(whole.text, node, [key]) if len(node.pairs) > 1 else without(whole.text, body.node, ["meta"])
