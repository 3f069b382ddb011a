"""Names in expressions and types that are misspelt, where one alone is near."""
from __future__ import annotations

from typing import List

from front.hints import formulas, tokens
from front.hints.formulas import Formula
from front.hints.kinds import Hint
from front.hints.places import Places
from front.mend.change import Change, Edit, Found, Mark, Need
from front.mend.said import values
from front.mend.whole import Whole, span
from front.mend.written import scalar


def near(whole: Whole, line: int, hint: Hint) -> Found:
    """The name that a hint says, in the expressions, types and enums of a line."""
    said = values(hint)
    old, new = said.get("name", ""), said.get("near", "")
    if not old or not new or not tokens.TOKEN.fullmatch(new.split("::")[-1]):
        return Need()
    places = Places(whole.outline, line)
    edits: List[Edit] = []
    marks: List[Mark] = []
    for it in [*formulas.types(places), *formulas.of(places), *enums(places)]:
        if it.key == "case":
            continue
        words, place = replaced(it, hint.kind, old, new), span(whole.text, it.node)
        if words != it.text and place and not any(one.begin == place[0] for one in edits):
            edits.append(Edit(*place, scalar(words, is_inside(whole.text, it))))
            marks.append(Mark(place[0], "", f"was {' '.join(it.text.split())}"))
    return Change(hint.text.replace("`", ""), tuple(edits), tuple(marks)) if edits else Need()


def is_inside(text: str, formula: Formula) -> bool:
    """Whether a value is in braces or brackets."""
    around = formula.place.around
    return around.is_flow or formula.place.role == "choices"


def enums(places: Places) -> List[Formula]:
    """The paths of enums on a line."""
    found = [it for it in places.keys if it.key == "enum" and it.value.kind == "text" and it.role in ("attribute", "instance", "value")]
    return [Formula(it.value.text, "enum", "enum", it.value, it, places.outline.text) for it in found]


def replaced(formula: Formula, kind: str, old: str, new: str) -> str:
    """A text with another name in the places that are of a hint's kind."""
    text = formula.text
    if formula.key in ("type", "enum"):
        is_it = kind in ("near type", "one byte", "integer type") if formula.key == "type" else kind == "near enum"
        return new + text[len(old) :] if is_it and text.startswith(old) and not text[len(old) : len(old) + 1].isalnum() else text
    read = tokens.read(text)
    for count in range(len(read) - 1, -1, -1):
        before = read[count - 1].text if count else ""
        after = read[count + 1].text if count + 1 < len(read) else ""
        is_member = before not in (".", "::") and after != "::"
        is_it = {"near member": is_member, "near enum member": before == "::", "near enum": after == "::", "near type": after in ("::", ">")}
        if read[count].kind == "name" and read[count].text == old and is_it.get(kind):
            text = text[: read[count].at] + new + text[read[count].at + len(old) :]
    return text
