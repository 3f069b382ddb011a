"""Casts to types of the language: an integer or a text is what it was, so they are left out."""
from __future__ import annotations

import re
from typing import List

from front.hints import tokens
from front.mend.change import Change, Edit, Found, Mark, Need
from front.mend.whole import Whole, expressions, extent, told_at

CAST = re.compile(r"\s*\.\s*as\s*<\s*([us](?:1|[248](?:le|be)?)|str)\s*>")


def left_out(whole: Whole) -> Found:
    """All expressions without them."""
    edits: List[Edit] = []
    marks: List[Mark] = []
    losses: List[str] = []
    done = set()
    for field in whole.fields:
        for it in expressions(field):
            begin, stop = extent(whole.text, it.node) if "as" in it.text else (0, 0)
            found = list(CAST.finditer(whole.text, begin, stop))
            if not found or it.node.at in done or len(found) != count(it.node.text):
                continue
            done.add(it.node.at)
            edits += [Edit(one.start(), one.end(), "") for one in found]
            if it.node.mark not in ("|", ">"):
                marks.append(Mark(told_at(whole.text, it.node.at, it.node), field.name, f"was {' '.join(it.node.text.split())}"))
            cut = sorted({one[1] for one in found} - {"str"})
            losses += [f"line {whole.line(it.node.at)}: `{field.name}` isn't cut to {', '.join(cut)} where a number doesn't fit"] if cut else []
    return Change("a cast to a type of the language changes no value", tuple(edits), tuple(marks), tuple(losses)) if edits else Need()


def count(text: str) -> int:
    """How many such casts an expression has, and none in its texts."""
    read = tokens.read(text)
    return sum(CAST.fullmatch("".join(one.text for one in read[at : at + 5])) is not None for at in range(len(read)) if read[at].text == ".")
