"""Texts that need quotes or brackets, and texts that are filled up."""
from __future__ import annotations

import re
from typing import List

from front.hints.outline import COMMENT, STOP
from front.mend.change import Change, Edit, Found, Mark, Need
from front.mend.whole import Field, Whole, keyed, span
from front.mend.written import without

# What chooses a case as it is: a number, a truth value, a text, a member of an enum, or `_`.
CASE = re.compile(r"(?:-?\d+|0x[0-9a-fA-F]+|true|false|_|'.*'|\".*\"|[a-z_0-9]+(?:::[a-z_0-9]+)+)\Z")
NUMBER = re.compile(r"(?:0x[0-9a-fA-F]{1,2}|[0-9]{1,3})\Z")


def quoted(whole: Whole) -> Found:
    """Quotes around each plain text that has a colon before a space, or begins with a letter that YAML keeps for itself."""
    text, outline = whole.text, whole.outline
    edits: List[Edit] = []
    marks: List[Mark] = []
    for row in range(len(outline.starts)):
        first = outline.inline(row)
        if outline.key(row) is None or not first or first in "\"'{[|>#&*!":
            continue
        begin = outline.node(row).at
        stop = text.find("\n", begin)
        line = text[begin : len(text) if stop < 0 else stop].rstrip("\r")
        comment = COMMENT.search(line)
        words = (line[: comment.start()] if comment else line).rstrip()
        found = STOP.search(words + " ")
        if found and found[0] == ":" or first in "@%`":
            edits.append(Edit(begin, begin + len(words), "'" + words.replace("'", "''") + "'"))
            marks.append(Mark(begin, "", "was without quotes"))
    return Change("a text with a colon, or such a first letter, needs quotes", tuple(edits), tuple(marks)) if edits else Need()


def cases(whole: Whole) -> Found:
    """Quotes of both kinds around the texts that choose a case."""
    edits: List[Edit] = []
    marks: List[Mark] = []
    for field in whole.fields:
        switch = keyed(field.keys["type"].value) if "type" in field.keys else {}
        for it in switch["cases"].value.pairs if "cases" in switch else []:
            is_quoted = whole.text[it.at : it.at + 1] in ("'", '"')
            if is_quoted and not CASE.match(it.key) and not re.search(r"[\\\"']", it.key):
                edits.append(Edit(it.at, it.at + len(it.key) + 2, f"'\"{it.key}\"'"))
                marks.append(Mark(it.at, "", f"was \"{it.key}\""))
    return Change("a text that chooses a case has quotes of both kinds", tuple(edits), tuple(marks)) if edits else Need()


def contents(whole: Whole) -> Found:
    """Brackets around a number that `contents` has alone."""
    edits: List[Edit] = []
    marks: List[Mark] = []
    for field in whole.fields:
        node = field.keys["contents"].value if "contents" in field.keys else None
        text = node.text if node is not None and node.kind == "text" and not node.mark else ""
        if NUMBER.match(text) and int(text, 16 if "x" in text else 10) < 256:
            edits.append(Edit(node.at, node.at + len(node.text), f"[{node.text}]"))
            marks.append(Mark(node.at, field.name, f"was {node.text}"))
    return Change("the bytes of `contents` are a list", tuple(edits), tuple(marks)) if edits else Need()


def is_ended(field: Field, pad: str) -> bool:
    """Whether a text ends before the first of the bytes that fill it up, by its terminator."""
    byte, end = (int(it, 16 if "x" in it else 10) if NUMBER.match(it) else -1 for it in (pad, field.said("terminator") or "0"))
    return byte == end and field.said("include") != "true" and ("terminator" in field.keys or field.said("type") == "strz")


def padded(whole: Whole) -> Found:
    """Texts that are filled up with a byte: they end before the first zero byte, or keep the bytes that fill them."""
    edits: List[Edit] = []
    marks: List[Mark] = []
    losses: List[str] = []
    for field in whole.fields:
        if "pad-right" not in field.keys:
            continue
        pad = field.said("pad-right")
        key = field.keys["pad-right"]
        place = span(whole.text, key.value)
        if place is None:
            return Need()
        is_text = "type" not in field.keys or field.said("type") == "str"
        is_sized = "size" in field.keys or field.said("size-eos") == "true"
        if pad in ("0", "0x00", "0x0") and is_text and not {"terminator", "contents", "value"} & set(field.keys):
            edits.append(Edit(key.at, place[1], f"terminator: {pad}"))
            marks.append(Mark(key.at, field.name, f"was pad-right: {pad}"))
            losses.append(f"line {whole.line(key.at)}: `{field.name}` ends before its first zero byte, and not after the last byte that is another")
            continue
        found = without(whole.text, field.node, ["pad-right"])
        if not found:
            return Need()
        edits, marks = edits + found[0], marks + found[1]
        losses += [f"line {whole.line(key.at)}: `{field.name}` keeps the bytes {pad} at its end"] if is_sized and not is_ended(field, pad) else []
    return Change("`pad-right` isn't read", tuple(edits), tuple(marks), tuple(losses)) if edits else Need()
