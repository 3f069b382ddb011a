"""The tokens of an expression: its names, numbers, texts and signs with their places, as far as they can be told."""
from __future__ import annotations

import re
from typing import List, NamedTuple, Sequence

# The operators between two operands, those of a level together, from the loosest to the tightest; and comparisons, which are looser than all of these.
LEVELS = (("|",), ("^",), ("&",), ("<<", ">>"), ("+", "-"), ("*", "/", "%"))
COMPARISONS = ("<", "<=", ">", ">=", "==", "!=")
# All signs, longer ones first.
SIGNS = sorted({*sum(LEVELS, ()), *COMPARISONS, *"~?:.()[],", "::"}, key=lambda sign: (-len(sign), sign))
TOKEN = re.compile(
    r"(?P<number>0x[0-9a-fA-F](?:_?[0-9a-fA-F])*|0b[01](?:_?[01])*|[0-9](?:_?[0-9])*)|(?P<name>[a-z_][a-z0-9_]*)|(?P<text>'[^']*'|\"[^\"\\]*(?:\\.[^\"\\]*)*\")"
    rf"|(?P<sign>{'|'.join(map(re.escape, SIGNS))})|(?P<other>\S)",
    re.S,
)
FRACTION = re.compile(r"\.[0-9]|[eE][+-]?[0-9]")
ESCAPE = re.compile(r"\\(?:[\\\"'abtnvfre]|u(?![dD][89a-fA-F])[0-9a-fA-F]{4})")
WORDS = frozenset({"true", "false", "and", "or", "not"})
SPECIAL = ("_root", "_parent", "_io", "_index", "_")
# How much of an expression is looked at; ksv reads 256 parts of one.
MOST = 4000


class Token(NamedTuple):
    """A token: what it is, its text, and where it begins in the expression, in characters."""

    kind: str
    text: str
    at: int


def read(text: str) -> List[Token]:
    """The tokens of an expression."""
    return [Token(it.lastgroup or "", it[0], it.start()) for it in TOKEN.finditer(text[:MOST])]


def bad_escape(text: str) -> str:
    """The first escape in a quoted text that is none; the empty text where there is none."""
    at = text.find("\\") if text.startswith('"') else -1
    while at >= 0:
        found = ESCAPE.match(text, at)
        if not found:
            return text[at : at + 2]
        at = text.find("\\", found.end())
    return ""


class Name(NamedTuple):
    """A name in an expression: a `member` of the object, a `path` with `::`, a name after a `point`, a `call` with so many arguments, or the type of a
    `cast`."""

    kind: str
    names: List[str]
    count: int = 0


def names(text: str) -> List[Name]:
    """The names in an expression that can be read, in the order of its text."""
    found, tokens, at = [], read(text), 0
    while at < len(tokens):
        token, before = tokens[at], tokens[at - 1].text if at else ""
        if token.kind != "name" or token.text in WORDS:
            at += 1
            continue
        path = [token.text]
        while at + 2 < len(tokens) and tokens[at + 1].text == "::" and tokens[at + 2].kind == "name":
            path.append(tokens[at + 2].text)
            at += 2
        after = tokens[at + 1].text if at + 1 < len(tokens) else ""
        if before == "." and token.text == "as" and after == "<":
            at += 2
            path = [it.text for it in tokens[at:] if it.kind == "name"][:1] if at < len(tokens) else []
            while at + 2 < len(tokens) and tokens[at + 1].text == "::":
                path.append(tokens[at + 2].text)
                at += 2
            found.append(Name("cast", path))
        elif before == ".":
            found.append(Name("call", path, arguments(tokens, at + 1)) if after == "(" else Name("point", path))
        else:
            found.append(Name("path" if len(path) > 1 else "member", path))
        at += 1
    return found


def arguments(tokens: Sequence[Token], at: int) -> int:
    """How many arguments are in the parentheses that open at a token."""
    depth, count = 0, 0
    for index in range(at, len(tokens)):
        text = tokens[index].text
        depth += (text in ("(", "[")) - (text in (")", "]"))
        if not depth:
            return count + (index > at + 1)
        count += text == "," and depth == 1
    return count


class TypeText(NamedTuple):
    """The text of a type: its names, and its arguments as texts, None where there are no parentheses."""

    names: List[str]
    arguments: List[str]
    has_arguments: bool


def type_text(text: str) -> TypeText:
    """The names of a type and its arguments."""
    tokens = read(text)
    opening = next((count for count, it in enumerate(tokens) if it.text == "("), len(tokens))
    found = [it.text for it in tokens[:opening] if it.kind == "name"]
    parts, depth, start = [], 0, None
    for it in tokens[opening:]:
        if it.text in ("(", "["):
            depth += 1
            start = it.at + 1 if start is None else start
        elif it.text in (")", "]"):
            depth -= 1
        if start is not None and (it.text == "," and depth == 1 or not depth):
            parts.append(text[start : it.at].strip())
            start = it.at + 1
        if start is not None and not depth:
            break
    return TypeText(found, [it for it in parts if it], opening < len(tokens))
