"""What begins on a line of a description: its keys, items and mappings, each with what it is in."""
from __future__ import annotations

from typing import List, NamedTuple, Optional

from front.hints import lines, schema
from front.hints.node import Node
from front.hints.outline import Outline
from front.hints.scope import Type

# How deep a description is looked into; ksv reads 64 levels.
DEEPEST = 70


class Place(NamedTuple):
    """A key with its value, or an item, whose key is empty: the kind of mapping or list that it is in, that mapping, the type around it, and the attribute
    or instance around it, where there is one."""

    key: str
    at: int
    value: Node
    role: str
    around: Node
    type: Type
    attribute: Optional[Node]
    attribute_role: str
    is_quoted: bool = False


class Start(NamedTuple):
    """A mapping that begins on the line, with its kind, the key that it is under, the type around it, and the attribute or instance that it is or is in."""

    node: Node
    role: str
    key: str
    type: Type
    attribute: Optional[Node]


class Places:
    """All that begins on one line."""

    def __init__(self, outline: Outline, number: int) -> None:
        """Looks for what begins on a line."""
        text = outline.text
        begin = lines.start(text, number)
        self.outline, self.number, self.begin = outline, number, begin or 0
        self.end = lines.stop(text, self.begin) + 1
        self.line = text[self.begin : self.end].rstrip("\r\n")
        self.keys: List[Place] = []
        self.starts: List[Start] = []
        root = outline.root
        meta = root.get("meta")
        self.root = Type(meta.said("id") if meta else "", root)
        if begin is not None:
            self._map(root, "type", "", self.root, None, "", 0)

    def _value(self, node: Node, role: str, key: str, one: Type, attribute: Optional[Node], kind: str, depth: int) -> None:
        """Looks into a value that may have something of the line."""
        if depth > DEEPEST or node.stop < self.begin or node.at >= self.end:
            return
        if node.kind == "map":
            self._map(node, role, key, one, attribute, kind, depth)
        elif node.kind == "list":
            inner = schema.ITEMS.get(role, "item")
            for it in node.between(self.begin, self.end)[1]:
                if it.at >= self.end:
                    return
                own = (it, inner) if inner == "attribute" else (attribute, kind)
                if it.at >= self.begin:
                    self.keys.append(Place("", it.at, it, role, node, one, *own))
                self._value(it, inner, "", one, *own, depth + 1)

    def _map(self, node: Node, role: str, key: str, one: Type, attribute: Optional[Node], kind: str, depth: int) -> None:
        """Looks into a mapping."""
        if role == "instance":
            attribute, kind = node, "value" if node.has("value") else "instance"
        if self.begin <= node.at < self.end:
            self.starts.append(Start(node, role, key, one, attribute))
        for it in node.between(self.begin, self.end)[0]:
            if it.at >= self.end:
                return
            inner = schema.BELOW.get((role, it.key)) or schema.BELOW.get((role, "*"), "none")
            if it.at >= self.begin:
                shown = "value" if role == "instance" and node.has("value") else role
                is_quoted = self.outline.text[it.at : it.at + 1] in ("'", '"')
                self.keys.append(Place(it.key, it.at, it.value, shown, node, one, attribute, kind, is_quoted))
            if it.value.stop >= self.begin:
                below = one.types[it.key] if role == "types" and one.types.get(it.key) and one.types[it.key].node is it.value else one
                self._value(it.value, inner, it.key, below, attribute, kind, depth + 1)
