"""The expressions and type texts that begin on a line, each with the key that it is of."""
from __future__ import annotations

from typing import Iterator, List, NamedTuple

from front.hints import schema, tokens
from front.hints.node import Node
from front.hints.places import Place, Places


class Formula(NamedTuple):
    """An expression: its text, what kind of key has it, the key as it is written, its value, the place of that key, and all of the description."""

    text: str
    key: str
    written: str
    node: Node
    place: Place
    source: str


def of(places: Places) -> Iterator[Formula]:
    """The expressions whose refusals would name the line."""
    for it in places.keys:
        key = schema.EXPRESSIONS.get(("instance" if it.role == "value" else it.role, it.key))
        if key and it.value.kind == "text":
            yield Formula(it.value.text, key, it.key, it.value, it, places.outline.text)
        elif it.role == "choices" and it.value.kind == "text":
            yield Formula(it.value.text, "valid", "any-of", it.value, it, places.outline.text)
        if it.role == "cases":
            yield Formula(it.key, "case", "cases", it.value, it, places.outline.text)


def types(places: Places) -> Iterator[Formula]:
    """The texts of types whose refusals would name the line."""
    for it in places.keys:
        if it.value.kind == "text" and (it.role in ("attribute", "instance", "value") and it.key == "type" or it.role == "cases"):
            yield Formula(it.value.text, "type", "type", it.value, it, places.outline.text)


def arguments(formula: Formula) -> List[Formula]:
    """The arguments of a type's text, as expressions."""
    return [formula._replace(text=it, key="argument") for it in tokens.type_text(formula.text).arguments]
