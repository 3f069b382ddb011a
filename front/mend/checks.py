"""Checks that name the value that is checked, which would be a circle: they ask it as `_`."""
from __future__ import annotations

from typing import Dict, List, Optional

from front.hints import tokens
from front.mend.change import Change, Edit, Found, Mark, Need
from front.mend.whole import Field, Whole, extent
from front.mend.written import last, scalar

# How a value is compared with what each key of a check says; of `expr` it is asked by its own name alone.
COMPARED = {"eq": "_ == ", "any-of": "_ == ", "min": "_ >= ", "max": "_ <= ", "expr": ""}


def own(whole: Whole) -> Found:
    """All such checks, but those of lists, whose name is that of the list."""
    edits: List[Edit] = []
    marks: List[Mark] = []
    for field in whole.fields:
        said = {} if "repeat" in field.keys else parts(field)
        words = joined(field.name, said) if any(named(field.name, it) != it for them in said.values() for it in them) else None
        if words is None:
            continue
        node = field.keys["valid"].value
        is_block = node.kind == "map" and not node.is_flow
        begin, stop = (node.pairs[0].at, last(whole.text, node.pairs[-1])) if is_block else extent(whole.text, node)
        text = f"expr: {scalar(words, not is_block)}"
        edits.append(Edit(begin, stop, text if is_block else f"{{{text}}}"))
        marks.append(Mark(stop, field.name, f"was {' '.join(whole.text[begin:stop].split())}"))
    return Change("a check that names its own value is a circle: there the value is `_`", tuple(edits), tuple(marks)) if edits else Need()


def parts(field: Field) -> Dict[str, List[str]]:
    """The expressions of a member's check by their keys."""
    node = field.keys["valid"].value if "valid" in field.keys and field.name else None
    if node is None or node.kind == "text":
        return {"eq": [node.text]} if node is not None else {}
    found = {it.key: [one.text for one in it.value.items] if it.value.kind == "list" else [it.value.text] for it in node.pairs}
    return found if set(found) <= set(COMPARED) else {}


def joined(name: str, said: Dict[str, List[str]]) -> Optional[str]:
    """One expression that is true where a check allows the value; None where a part of it isn't so simple."""
    alike = {key: [f"{sign}{enclosed(named(name, it)) if sign else named(name, it)}" for it in said[key]] for key, sign in COMPARED.items() if key in said}
    return " and ".join(" or ".join(it) for it in alike.values()) if all(alike.values()) else None


def named(name: str, text: str) -> str:
    """An expression with `_` for a member of its own type."""
    read = tokens.read(text)
    for count in range(len(read) - 1, -1, -1):
        it, before = read[count], read[count - 1].text if count else ""
        after = read[count + 1].text if count + 1 < len(read) else ""
        if it.kind == "name" and it.text == name and before not in (".", "::") and after != "::":
            text = f"{text[: it.at]}_{text[it.at + len(name) :]}"
    return text


def enclosed(text: str) -> str:
    """An expression as an operand of a comparison."""
    return text if len(tokens.read(text)) == 1 else f"({' '.join(text.split())})"
