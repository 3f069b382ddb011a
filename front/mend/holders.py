"""Which type has each member that an expression names, where its names and indices are followed from the expression's own type."""
from __future__ import annotations

from typing import Dict, Iterator, List, NamedTuple, Optional, Tuple

from front.hints import tokens
from front.mend.whole import Body, Expression, Field, Whole

# How many expressions are followed from one into another.
DEEPEST = 8


class Shape(NamedTuple):
    """An object of a type, or a list of such."""

    body: Body
    is_list: bool = False


# A name of an expression, with the type that has it; None where that can't be told.
Named = Tuple[str, Optional[Body]]


class Chain:
    """What was read of an expression: the members that it names, what its last value is, and whether all of it is one chain of names, indices and casts."""

    def __init__(self) -> None:
        """Nothing is read yet."""
        self.named: List[Named] = []
        self.here: Optional[Shape] = None
        self.is_one = True
        self.outer: List[Optional[Shape]] = []

    def sign(self, text: str, count: int) -> None:
        """Goes on behind a token that is no name; one that may end the chain is told by how many come before it."""
        if text in ("[", "("):
            self.outer.append(self.here if text == "[" else None)
            self.here = None
            self.is_one &= text == "[" or not count or len(self.outer) > 1
        elif text in ("]", ")"):
            listed = self.outer.pop() if self.outer else None
            self.here = Shape(listed.body) if listed and listed.is_list else None
        elif text != ".":
            self.here = None
            self.is_one &= bool(self.outer)


class Holders:
    """Follows names through the types of a description; what a member is found to be is kept."""

    def __init__(self, whole: Whole) -> None:
        """The members of each type, of two with one name the first."""
        self.root = Shape(whole.root)
        self.members: Dict[Body, Dict[str, Field]] = {body: {it.name: it for it in reversed(body.fields)} for body in whole.bodies}
        self.known: Dict[int, Optional[Shape]] = {}

    def named(self, one: Expression) -> List[Named]:
        """The members that an expression names; in `repeat-until` the element, which may be the last one, is the list."""
        element = one.field if one.key == "repeat-until" else None
        return self.chain(one.text, one.field.body, element, 0).named

    def chain(self, text: str, body: Body, element: Optional[Field], depth: int) -> Chain:
        """An expression of a type that is read from its begin to its end."""
        found, read = Chain(), tokens.read(text)
        steps = iter(range(len(read)))
        for count in steps:
            it, before = read[count], read[count - 1].text if count else ""
            after = read[count + 1].text if count + 1 < len(read) else ""
            if it.kind != "name" or it.text in tokens.WORDS:
                found.sign(it.text, count)
            elif before == "." and it.text == "as" and after == "<":
                names = list(type_names(read, steps))
                cast = body.find(names) if names else None
                found.here = Shape(cast) if cast else None
            elif "::" in (before, after):
                found.here = None
            elif before == ".":
                if found.here is None or not found.here.is_list:
                    found.named.append((it.text, found.here.body if found.here else None))
                found.here = self.step(found.here, it.text, depth)
            else:
                name = element.name if element and it.text == "_" else it.text
                found.named.append((name, body))
                is_element = element is not None and it.text == "_"
                here = self.root if name == "_root" else self.shape(self.members[body].get(name), depth)
                found.here = Shape(here.body) if here and is_element else here
        return found

    def step(self, here: Optional[Shape], name: str, depth: int) -> Optional[Shape]:
        """What is behind a point."""
        if here is None or here.is_list:
            return Shape(here.body) if here and name in ("first", "last") else None
        return self.root if name == "_root" else self.shape(self.members[here.body].get(name), depth)

    def shape(self, field: Optional[Field], depth: int) -> Optional[Shape]:
        """What a member is, if it is an object or a list of such, and of one type."""
        if field is None or depth > DEEPEST:
            return None
        if id(field.node) not in self.known:
            self.known[id(field.node)] = None
            self.known[id(field.node)] = self.found(field, depth)
        return self.known[id(field.node)]

    def found(self, field: Field, depth: int) -> Optional[Shape]:
        """The same, by the text of its type or of its value."""
        if field.role == "value":
            read = self.chain(field.said("value"), field.body, None, depth + 1)
            return read.here if read.is_one else None
        names = tokens.type_text(field.said("type")).names
        body = field.body.find(names) if names else None
        return Shape(body, "repeat" in field.keys) if body else None


def type_names(read: List[tokens.Token], steps: Iterator[int]) -> Iterator[str]:
    """The names of the type of a cast; what is read goes on behind it."""
    for count in steps:
        if read[count].kind == "name":
            yield read[count].text
        elif read[count].text not in ("<", "::"):
            return
