"""Where an expression or a type's text can't be read: the code and the place, in characters, that the program finds."""
from __future__ import annotations

from typing import List, NamedTuple, Optional, Tuple

from front.hints import tokens
from front.hints.tokens import COMPARISONS, LEVELS, Token

# How deep and how long an expression is; the program refuses more of either.
DEEPEST, MOST_PARTS = 32, 256
END = Token("end", "", -1)


class Refused(NamedTuple):
    """A code, and the place of the token that is refused."""

    code: str
    at: int


class Stop(Exception):
    """The first token that can't come where it is."""

    def __init__(self, code: str, at: int) -> None:
        """A code and a place."""
        super().__init__(code)
        self.refused = Refused(code, at)


def refused(text: str, is_type: bool) -> Optional[Refused]:
    """What is refused of an expression, or of a type's text; None where nothing is, or it is longer than what is looked at."""
    if len(text) > tokens.MOST:
        return None
    parser = Parser(text)
    try:
        parser.type() if is_type else parser.expression()
        parser.want("end")
    except Stop as stop:
        return stop.refused
    return None


class Parser:
    """Takes one token after the other."""

    def __init__(self, text: str) -> None:
        """Begins at the first token."""
        self.text, self.tokens, self.at = text, tokens.read(text), 0
        self.parts = self.depth = 0

    @property
    def now(self) -> Token:
        """The present token."""
        return self.tokens[self.at] if self.at < len(self.tokens) else Token("end", "", len(self.text))

    def sees(self, *texts: str) -> bool:
        """Whether the present token is one of these signs or words."""
        return self.now.kind in ("sign", "name") and self.now.text in texts

    def unexpected(self) -> Stop:
        """The refusal of the present token."""
        here = self.now
        if here.kind == "end":
            return Stop("X2", here.at)
        if here.kind == "other" and here.text in "\"'":
            return Stop("X2", len(self.text))
        return Stop("X1", here.at)

    def step(self) -> None:
        """Goes on; a token that can't be read is refused once it is the present one."""
        self.at += 1
        self.check()

    def check(self) -> None:
        """Refuses the present token where it is none, or a form that isn't read."""
        here = self.now
        if here.kind == "other":
            raise self.unexpected()
        after = self.text[here.at + len(here.text) :]
        if here.kind == "number" and here.text[:2] not in ("0x", "0b"):
            if here.text[:1] == "0" and len(here.text) > 1 or tokens.FRACTION.match(after):
                raise Stop("X3", here.at)
        if here.kind == "name" and here.text == "f" and after.startswith('"') or here.kind == "text" and tokens.bad_escape(here.text):
            raise Stop("X3", here.at)

    def part(self) -> None:
        """Counts a part."""
        self.parts += 1
        if self.parts > MOST_PARTS:
            raise Stop("X5", self.now.at)

    def deeper(self) -> None:
        """Goes one level deeper."""
        self.depth += 1
        if self.depth > DEEPEST:
            raise Stop("X5", self.now.at)

    def want(self, text: str) -> None:
        """The present token must be this sign, or the end."""
        if text == "end":
            if self.now.kind != "end":
                raise Stop("X1", self.now.at)
            return
        if not self.sees(text):
            raise self.unexpected()
        self.step()

    def expression(self) -> None:
        """An expression."""
        if not self.at:
            self.check()
        self.binary(0)
        if self.sees("?"):
            self.part()
            self.deeper()
            self.step()
            self.expression()
            self.want(":")
            self.expression()
            self.depth -= 1

    def binary(self, level: int) -> None:
        """Terms of `or`, of `and`, negations with a comparison, and then the levels of other operators."""
        if level == 2:
            return self.signed(("not",), level)
        operators = (("or",), ("and",))[level] if level < 2 else LEVELS[level - 3] if level - 3 < len(LEVELS) else ()
        if not operators:
            return self.signed(("-", "~", "+"), level)
        self.binary(level + 1)
        while self.sees(*operators):
            self.part()
            self.step()
            self.binary(level + 1)
        return None

    def signed(self, signs: Tuple[str, ...], level: int) -> None:
        """Signs before an operand."""
        if self.sees(*signs):
            self.part()
            self.deeper()
            self.step()
            self.signed(signs, level)
            self.depth -= 1
        elif level == 2:
            self.binary(3)
            if self.sees(*COMPARISONS):
                self.part()
                self.step()
                self.binary(3)
        else:
            self.value()

    def value(self) -> None:
        """A value with what comes after it."""
        self.first()
        while self.sees("[", "."):
            self.part()
            if self.sees("["):
                self.deeper()
                self.step()
                self.expression()
                self.want("]")
                self.depth -= 1
                continue
            self.step()
            self.after_point()

    def after_point(self) -> None:
        """A member, a call or a cast."""
        if self.now.kind != "name" or self.now.text in tokens.WORDS:
            raise self.unexpected()
        name = self.now.text
        self.step()
        if name == "as" and self.sees("<"):
            self.step()
            self.names()
            self.want(">")
        elif self.sees("("):
            self.arguments()

    def arguments(self) -> None:
        """Expressions in parentheses."""
        self.deeper()
        self.step()
        if not self.sees(")"):
            self.expression()
            while self.sees(","):
                self.step()
                self.expression()
        self.want(")")
        self.depth -= 1

    def first(self) -> None:
        """A literal, a name, a member of an enum, or an expression in parentheses."""
        here = self.now
        if self.sees("("):
            self.deeper()
            self.step()
            self.expression()
            self.want(")")
            self.depth -= 1
        elif self.sees("[", "sizeof", "bitsizeof"):
            raise Stop("X3", here.at)
        elif here.kind in ("number", "text") or here.text in ("true", "false") or here.text in tokens.SPECIAL:
            self.part()
            self.step()
        elif here.kind == "name" and here.text not in tokens.WORDS:
            self.part()
            self.names()
        else:
            raise self.unexpected()

    def names(self) -> List[str]:
        """Names with `::` between them."""
        found: List[str] = []
        while True:
            if self.now.kind != "name" or self.now.text in tokens.WORDS or self.now.text in tokens.SPECIAL:
                raise self.unexpected()
            found.append(self.now.text)
            self.step()
            if not self.sees("::"):
                return found
            self.step()

    def type(self) -> None:
        """A type's text."""
        self.check()
        self.names()
        if self.sees("("):
            self.arguments()
