"""Floats, which are read as integers of the same bytes, and what is calculated with fractions, which is taken out."""
from __future__ import annotations

import re
from typing import Dict, List

from front.hints import tokens
from front.mend.change import Change, Edit, Found, Mark, Need
from front.mend.uses import calculated_marks, told, uses
from front.mend.whole import Body, Whole, kinds, span
from front.mend.written import without

FLOAT = re.compile(r"f([48])(le|be)?\Z")
FRACTION = re.compile(r"(?<![\w.])[0-9][0-9_]*(?:\.[0-9]|[eE][+-]?[0-9])")


def bits(whole: Whole) -> Found:
    """Each float as an integer of the same bytes."""
    edits: List[Edit] = []
    marks: List[Mark] = []
    losses: List[str] = []
    lost = []
    for field in whole.fields:
        mended = [it for it in kinds(field) if FLOAT.match(it.text)]
        for it in mended:
            begin, stop = span(whole.text, it) or (0, 0)
            if not stop:
                return Need()
            edits.append(Edit(begin, stop, "u" + it.text[1:]))
            marks.append(Mark(it.at, field.name, f"was {it.text}"))
        if mended:
            lost.append((field.body, field.name))
        if mended and "valid" in field.keys:
            gone = None if field.node.is_flow else without(whole.text, field.node, ["valid"])
            if not gone:
                return Need(f"line {whole.line(field.at)}: the check of a float can't be kept")
            edits, marks = edits + gone[0], marks + gone[1]
            losses.append(f"line {whole.line(field.at)}: `{field.name}` isn't checked any more")
    used = uses(whole, lost)
    if used.deciding:
        return Need(f"line {whole.line(used.deciding[0].node.at)}: a float decides what is read")
    marks += calculated_marks(whole, used, "counts with a float's bits")
    losses += told(whole, used, "counts with the bits of a float, and not with its value")
    return Change("floats aren't read: their bytes are, as integers", tuple(edits), tuple(marks), tuple(losses))


def fractions(whole: Whole) -> Found:
    """What is calculated with a fraction is taken out, and what is calculated from that, where nothing that is read uses it."""
    lost = [it for it in whole.fields if it.role == "value" and FRACTION.search(it.said("value")) and not quoted_only(it.said("value"))]
    used = uses(whole, [(it.body, it.name) for it in lost])
    gone = {id(it.node) for it in lost} | {id(it.field.node) for it in used.calculated}
    lost = [it for it in whole.fields if id(it.node) in gone]
    others = [it for it in used.deciding if id(it.field.node) not in gone]
    if not lost or others:
        return Need(f"line {whole.line(others[0].node.at)} uses what is calculated with a fraction" if others else "")
    edits: List[Edit] = []
    marks: List[Mark] = []
    by_body: Dict[Body, List[str]] = {}
    for it in lost:
        by_body.setdefault(it.body, []).append(it.name)
    for body, names in by_body.items():
        instances = body.keys["instances"].value
        node, keys = (body.node, ["instances"]) if len(names) == len(instances.pairs) else (instances, names)
        found = without(whole.text, node, keys)
        if not found:
            return Need()
        edits, marks = edits + found[0], marks + found[1]
    losses = tuple(f"line {whole.line(it.at)}: `{it.name}` isn't calculated any more" for it in lost)
    return Change("numbers are whole: what is calculated with a fraction is taken out", tuple(edits), tuple(marks), losses)


def quoted_only(text: str) -> bool:
    """Whether the fractions of an expression are all in texts."""
    return not any(it.kind == "number" and tokens.FRACTION.match(text[it.at + len(it.text) :]) for it in tokens.read(text))
