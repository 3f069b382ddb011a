"""All of a description's text: its types with their keys, their members, and the expressions in them, each found in one pass."""
from __future__ import annotations

from typing import Dict, Iterator, List, NamedTuple, Optional, Sequence, Tuple

from front.hints import schema, tokens
from front.hints.node import Node, Pair
from front.hints.outline import Outline

# How many lines a text has at most, and how deep it is looked into; ksv reads 64 levels.
LINES, DEEPEST = 5_000, 70
EXPRESSIONS = ("if", "size", "repeat-expr", "repeat-until", "pos", "io", "value")


def keyed(node: Optional[Node]) -> Dict[str, Pair]:
    """The pairs of a mapping by their keys, of two with one key the first; none of anything else."""
    return {it.key: it for it in reversed(node.pairs)} if node is not None and node.kind == "map" else {}


class Body:
    """A type: its keys, those of its `meta`, and the types and enums that it declares."""

    def __init__(self, name: str, at: int, node: Node, outer: Optional[Body], under: Optional[Pair]) -> None:
        """A type of a name in another one; the root has none around it. `under` is the pair that it is the value of."""
        self.name, self.at, self.node, self.outer, self.under = name, at, node, outer, under
        self.keys = keyed(node)
        self.meta = keyed(self.value("meta"))
        self.enums = {key: it.value for key, it in keyed(self.value("enums")).items()}
        self.types: Dict[str, Body] = {}
        self.fields: List[Field] = []

    def value(self, key: str) -> Optional[Node]:
        """The value of a key of the type."""
        return self.keys[key].value if key in self.keys else None

    def around(self) -> Iterator[Body]:
        """This type and those around it, from the inside outwards."""
        here: Optional[Body] = self
        while here:
            yield here
            here = here.outer

    def stated(self, key: str) -> str:
        """What `meta` states of this type or the nearest one around it."""
        return next((it.meta[key].value.text for it in self.around() if key in it.meta and it.meta[key].value.kind == "text"), "")

    def find(self, names: Sequence[str]) -> Optional[Body]:
        """The type of a path, looked for from the inside outwards."""
        found = next((it.types[names[0]] for it in self.around() if names[0] in it.types), None)
        for it in names[1:]:
            found = found.types.get(it) if found else None
        return found

    def find_enum(self, path: str) -> Optional[Node]:
        """The enum of a path."""
        names = path.split("::")
        if len(names) == 1:
            return next((it.enums[path] for it in self.around() if path in it.enums), None)
        found = self.find(names[:-1])
        return found.enums.get(names[-1]) if found else None


class Field(NamedTuple):
    """An attribute or an instance: its name, where it begins, its mapping with its keys, and the type that has it."""

    name: str
    at: int
    node: Node
    keys: Dict[str, Pair]
    role: str
    body: Body

    def said(self, key: str) -> str:
        """The text of a key; the empty text where there is none."""
        return self.keys[key].value.text if key in self.keys else ""


class Expression(NamedTuple):
    """An expression of a field: its text, the key that it is of, and its value in the text of the description."""

    text: str
    key: str
    node: Node
    field: Field


class Whole:
    """A description that is read as a whole."""

    def __init__(self, text: str) -> None:
        """Finds the types and their members."""
        self.text = text
        self.outline = Outline(text, LINES)
        root = self.outline.root
        meta = keyed(keyed(root)["meta"].value) if "meta" in keyed(root) else {}
        self.root = Body(meta["id"].value.text if "id" in meta else "", 0, root, None, None)
        self.bodies: List[Body] = []
        rest: List[Tuple[Body, int]] = [(self.root, 0)]
        while rest:
            body, depth = rest.pop()
            self.bodies.append(body)
            body.fields = list(fields(body))
            for key, it in keyed(body.value("types")).items() if depth < DEEPEST else []:
                body.types[key] = Body(key, it.at, it.value, body, it)
                rest.append((body.types[key], depth + 1))
        self.bodies.sort(key=lambda it: it.at)

    @property
    def fields(self) -> Iterator[Field]:
        """All attributes and instances."""
        return (field for it in self.bodies for field in it.fields)

    def line(self, at: int) -> int:
        """The number of the line of a place."""
        return self.outline.line(at)


def fields(body: Body) -> Iterator[Field]:
    """The attributes and instances of a type."""
    found = body.value("seq")
    for it in found.items if found is not None and found.kind == "list" else []:
        keys = keyed(it)
        yield Field(keys["id"].value.text if "id" in keys else "", it.at, it, keys, "attribute", body)
    for key, it in reversed(keyed(body.value("instances")).items()):
        keys = keyed(it.value)
        yield Field(key, it.at, it.value, keys, "value" if "value" in keys else "instance", body)


def kinds(field: Field) -> Iterator[Node]:
    """The texts of types that a field may have: its own, or those of its cases."""
    found = field.keys["type"].value if "type" in field.keys else None
    if found is not None and found.kind == "text":
        yield found
    for it in keyed(keyed(found)["cases"].value).values() if "cases" in keyed(found) else []:
        if it.value.kind == "text":
            yield it.value


def expressions(field: Field) -> Iterator[Expression]:
    """The expressions of a field, those of its check, its switch and of arguments with them."""
    for key in EXPRESSIONS:
        if key in field.keys and field.keys[key].value.kind == "text":
            yield Expression(field.said(key), key, field.keys[key].value, field)
    check = field.keys["valid"].value if "valid" in field.keys else None
    for node in checks(check) if check is not None else []:
        yield Expression(node.text, "valid", node, field)
    switch = keyed(field.keys["type"].value).get("switch-on") if "type" in field.keys else None
    if switch and switch.value.kind == "text":
        yield Expression(switch.value.text, "switch-on", switch.value, field)
    for node in kinds(field):
        for it in tokens.type_text(node.text).arguments if "(" in node.text else []:
            yield Expression(it, "argument", node, field)


def checks(check: Node) -> Iterator[Node]:
    """The values of a check that are expressions."""
    if check.kind == "text":
        yield check
    for it in check.pairs:
        if it.key in schema.KEYS["valid"]:
            yield from it.value.items if it.value.kind == "list" else [it.value]


def span(text: str, node: Node) -> Optional[Tuple[int, int]]:
    """Where a text on one line is, with its quotes; None where it isn't so simple."""
    if node.kind != "text" or node.mark in ("|", ">"):
        return None
    if node.mark:
        return node.at, node.stop
    return (node.at, node.at + len(node.text)) if node.text and text.startswith(node.text, node.at) else None


def extent(text: str, node: Node) -> Tuple[int, int]:
    """Where a value is, over all its lines, without blank lines and comments after it."""
    if node.is_flow or node.mark in ("'", '"'):
        return node.at, node.stop
    place = span(text, node)
    if place:
        return place
    lines = text[node.at : node.stop].split("\n")
    while len(lines) > 1 and (not lines[-1].strip() or node.mark not in ("|", ">") and lines[-1].lstrip().startswith("#")):
        lines.pop()
    return node.at, node.at + len("\n".join(lines).rstrip())


def told_at(text: str, at: int, node: Node) -> int:
    """The place at whose line's end is told what was done to a value, of which the key or another part is at a place: a plain text would end before a comment."""
    return extent(text, node)[1] if node.kind == "text" and not node.mark else at
