"""Expressions and types: a text is parsed to a tree of tuples, or refused with a code and a byte place.

The trees are ("int", n), ("text", s), ("bool", b), ("name", n), ("special", word), ("member", names), ("unary", sign, x),
("binary", sign, x, y), ("and", x, y), ("or", x, y), ("choice", c, x, y), ("field", x, name), ("call", x, name, arguments),
("cast", x, names) and ("item", x, i)."""

import functools
import re

MESSAGES = {
    "X1": "unexpected character",
    "X2": "unexpected end",
    "X3": "left-out form",
    "X4": "number outside the range",
    "X5": "too large",
}

MOST_PARTS = 256
DEEPEST = 32
LARGEST = 2**64 - 1

WORDS = {"true", "false", "and", "or", "not"}
SPECIAL = {"_root", "_parent", "_io", "_index", "_"}
ESCAPES = {"\\": "\\", '"': '"', "'": "'", "a": "\a", "b": "\b", "t": "\t", "n": "\n", "v": "\v", "f": "\f", "r": "\r",
           "e": "\x1b"}

NUMBER = re.compile(rb"0x[0-9a-fA-F](?:_?[0-9a-fA-F])*|0b[01](?:_?[01])*|[0-9](?:_?[0-9])*")
FLOAT = re.compile(rb"[0-9](?:_?[0-9])*(?:\.[0-9]|[eE][+-]?[0-9])")
NAME = re.compile(rb"[a-z_][a-z0-9_]*")
SIGN = re.compile(rb"<<|>>|<=|>=|==|!=|::|[-+*/%&|^~<>?:.()\[\],]")
SPACE = re.compile(rb"[ \t\r\n]*")

LEVELS = [("|",), ("^",), ("&",), ("<<", ">>"), ("+", "-"), ("*", "/", "%")]
COMPARISONS = ("<", "<=", ">", ">=", "==", "!=")


class ExpressionFault(Exception):
    """Why a text is no expression."""

    def __init__(self, code, place):
        super().__init__(f"{code} {MESSAGES[code]} at {place}")
        self.code, self.place = code, place


@functools.lru_cache(4096)
def parse(text):
    """The tree of an expression, of text or bytes."""
    parser = Parser(text)
    tree = parser.expression()
    parser.at_end()
    return tree


@functools.lru_cache(4096)
def parse_type(text):
    """The names of a type and the trees of its arguments, None where there are no parentheses."""
    parser = Parser(text)
    names, arguments = parser.type_names(), None
    if parser.sees("("):
        arguments = parser.arguments()
    parser.at_end()
    return names, arguments


class Parser:
    """Takes one token after the other: its kind ("int", "text", "name", "sign" or "end"), value and place."""

    def __init__(self, text):
        self.data = text.encode("utf-8") if isinstance(text, str) else text
        self.behind = 0
        self.parts = 0
        self.depth = 0
        self.step()

    def step(self):
        """Cuts the next token, the longest that stands there."""
        data = self.data
        at = SPACE.match(data, self.behind).end()
        self.place = at
        if at == len(data):
            self.kind, self.value, self.behind = "end", None, at
            return
        letter = data[at:at + 1]
        if letter in b"'\"":
            self.kind = "text"
            self.value, self.behind = self.cut_text(at)
            return
        found = NUMBER.match(data, at)
        if found:
            self.kind, self.value, self.behind = "int", self.number(found[0]), found.end()
            return
        found = NAME.match(data, at)
        if found:
            if found[0] == b"f" and data[found.end():found.end() + 1] == b'"':
                raise self.fault("X3")
            self.kind, self.value, self.behind = "name", found[0].decode(), found.end()
            return
        found = SIGN.match(data, at)
        if found is None:
            raise self.fault("X1")
        self.kind, self.value, self.behind = "sign", found[0].decode(), found.end()

    def number(self, digits):
        """The number of a token; a float and a leading zero are left out."""
        if digits[:2] in (b"0x", b"0b"):
            number = int(digits[2:].replace(b"_", b""), 16 if digits[1:2] == b"x" else 2)
        else:
            if FLOAT.match(self.data, self.place) or (digits[:1] == b"0" and len(digits) > 1):
                raise self.fault("X3")
            number = int(digits.replace(b"_", b""))
        if number > LARGEST:
            raise self.fault("X4")
        return number

    def cut_text(self, start):
        """The value of a text and the place behind it."""
        data, at, out = self.data, start + 1, bytearray()
        quote = data[start:start + 1]
        while True:
            letter = data[at:at + 1]
            if letter == b"":
                raise ExpressionFault("X2", len(data))
            at += 1
            if letter == quote:
                break
            if quote == b"'" or letter != b"\\":
                out += letter
                continue
            letter = data[at:at + 1].decode("latin-1")
            if letter == "u":
                digits = data[at + 1:at + 5]
                if re.fullmatch(rb"[0-9a-fA-F]{0,3}", digits) and at + 1 + len(digits) == len(data):
                    raise ExpressionFault("X2", len(data))
                if not re.fullmatch(rb"[0-9a-fA-F]{4}", digits) or 0xD800 <= int(digits, 16) <= 0xDFFF:
                    raise ExpressionFault("X3", start)
                out += chr(int(digits, 16)).encode("utf-8")
                at += 5
                continue
            if letter == "":
                raise ExpressionFault("X2", len(data))
            if letter not in ESCAPES:
                raise ExpressionFault("X3", start)
            out += ESCAPES[letter].encode("utf-8")
            at += 1
        try:
            return out.decode("utf-8"), at
        except UnicodeDecodeError:
            raise ExpressionFault("X1", start) from None

    def fault(self, code):
        """A refusal at the present token."""
        return ExpressionFault(code, self.place)

    def unexpected(self):
        """The refusal of a token that can't come here."""
        return self.fault("X2" if self.kind == "end" else "X1")

    def part(self):
        """One part more begins at the present token."""
        self.parts += 1
        if self.parts > MOST_PARTS:
            raise self.fault("X5")

    def deeper(self):
        """What begins at the present token stands one level deeper."""
        self.depth += 1
        if self.depth > DEEPEST:
            raise self.fault("X5")

    def sees(self, *signs):
        """Whether the present token is one of these signs or words."""
        return self.kind in ("sign", "name") and self.value in signs

    def take(self, sign):
        """The present token must be this sign."""
        if not (self.kind == "sign" and self.value == sign):
            raise self.unexpected()
        self.step()

    def at_end(self):
        """No token may be left."""
        if self.kind != "end":
            raise self.fault("X1")

    def expression(self):
        """A choice, or what stands in its condition's place."""
        condition = self.either()
        if not self.sees("?"):
            return condition
        self.part()
        self.deeper()
        self.step()
        yes = self.expression()
        self.take(":")
        no = self.expression()
        self.depth -= 1
        return ("choice", condition, yes, no)

    def either(self):
        """Terms of `or`."""
        tree = self.both()
        while self.sees("or"):
            self.part()
            self.step()
            tree = ("or", tree, self.both())
        return tree

    def both(self):
        """Terms of `and`."""
        tree = self.negation()
        while self.sees("and"):
            self.part()
            self.step()
            tree = ("and", tree, self.negation())
        return tree

    def negation(self):
        """`not` any number of times, then a comparison."""
        return self.signed(("not",), self.negation, self.comparison)

    def signed(self, signs, again, otherwise):
        """A sign before its operand."""
        if not self.sees(*signs):
            return otherwise()
        sign = self.value
        self.part()
        self.deeper()
        self.step()
        operand = again()
        self.depth -= 1
        return ("unary", sign, operand)

    def comparison(self):
        """At most one comparison of two sums of bits."""
        left = self.binary(0)
        if not self.sees(*COMPARISONS):
            return left
        sign = self.value
        self.part()
        self.step()
        return ("binary", sign, left, self.binary(0))

    def binary(self, level):
        """The operators of one level, from left to right."""
        if level == len(LEVELS):
            return self.unary()
        tree = self.binary(level + 1)
        while self.sees(*LEVELS[level]):
            sign = self.value
            self.part()
            self.step()
            tree = ("binary", sign, tree, self.binary(level + 1))
        return tree

    def unary(self):
        """Signs before a value."""
        return self.signed(("-", "~", "+"), self.unary, self.value_with_ends)

    def value_with_ends(self):
        """A value with fields, calls, casts and indices behind it."""
        tree = self.first()
        while True:
            if self.sees("["):
                self.part()
                self.deeper()
                self.step()
                tree = ("item", tree, self.expression())
                self.take("]")
                self.depth -= 1
            elif self.sees("."):
                self.part()
                self.step()
                tree = self.behind_dot(tree)
            else:
                return tree

    def behind_dot(self, tree):
        """A field, a call or a cast of a tree."""
        if self.kind != "name" or self.value in WORDS:
            raise self.unexpected()
        name = self.value
        self.step()
        if name == "as" and self.sees("<"):
            self.step()
            names = self.type_names()
            self.take(">")
            return ("cast", tree, names)
        if self.sees("("):
            return ("call", tree, name, self.arguments())
        return ("field", tree, name)

    def arguments(self):
        """Expressions in parentheses."""
        self.deeper()
        self.step()
        trees = []
        if not self.sees(")"):
            trees.append(self.expression())
            while self.sees(","):
                self.step()
                trees.append(self.expression())
        self.take(")")
        self.depth -= 1
        return trees

    def plain_name(self):
        """A name that is no word. In a path of names those of the language are names as others are."""
        if self.kind != "name" or self.value in WORDS:
            raise self.unexpected()
        name = self.value
        self.step()
        return name

    def type_names(self):
        """Names with `::` between them."""
        names = [self.plain_name()]
        while self.sees("::"):
            self.step()
            names.append(self.plain_name())
        return names

    def first(self):
        """A literal, a name, a member of an enum, or an expression in parentheses."""
        kind, value = self.kind, self.value
        if kind in ("int", "text"):
            self.part()
            self.step()
            return (kind, value)
        if self.sees("("):
            self.deeper()
            self.step()
            tree = self.expression()
            self.take(")")
            self.depth -= 1
            return tree
        if self.sees("[") or (kind == "name" and value in ("sizeof", "bitsizeof")):
            raise self.fault("X3")
        if kind != "name" or value in ("and", "or", "not"):
            raise self.unexpected()
        self.part()
        if value in ("true", "false"):
            self.step()
            return ("bool", value == "true")
        names = self.type_names()
        if len(names) > 1:
            return ("member", names)
        return ("special" if value in SPECIAL else "name", value)
