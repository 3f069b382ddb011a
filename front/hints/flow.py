"""Values in braces and brackets: where one ends, and what is in it, each in one pass over its marks."""
from __future__ import annotations

import re
from typing import List, Optional, Tuple

from front.hints.node import Node, Pair

# A quoted text on one line. No pattern here has a repetition that can be read in two ways.
QUOTED = re.compile(r"\"[^\"\\\n]*(?:\\[^\n][^\"\\\n]*)*\"|'[^'\n]*(?:''[^'\n]*)*'(?!')")
# The marks of a flow: a comment, a quote, a bracket, a comma, a colon, or the first letter of a plain text.
MARK = re.compile(r"(?P<comment>#[^\n]*)|(?P<quote>[\"'])|(?P<open>[\[{])|(?P<close>[\]}])|(?P<comma>,)|(?P<colon>:)|(?P<plain>[^\s])")
SPACE = re.compile(r"\s*")
# Where a plain text in a flow ends, and what its end is looked for by.
PLAIN_END = re.compile(r"[,\[\]{}\n]|:(?=[\s,\[\]{}]|\Z)|[ \t]#|\Z")
EDGE = re.compile(r"[\"'\[\]{}]|\s#[^\n]*")
SIGN = re.compile(r"[\[\]{}]")
ESCAPE = re.compile(r"\\(?:x([\da-fA-F]{2})|u([\da-fA-F]{4})|(.))")
LETTERS = {"0": "\0", "a": "\a", "b": "\b", "t": "\t", "n": "\n", "v": "\v", "f": "\f", "r": "\r", "e": "\x1b"}
# How deep flows are read, where ksv reads 64 levels; and how many marks of one.
DEEPEST, MOST = 80, 1 << 30
# How much of a line is looked at.
LONGEST = 4000


def unquoted(word: str) -> str:
    """What a quoted text is, without its quotes and escapes."""
    if word.startswith("'"):
        return word[1:-1].replace("''", "'")
    return ESCAPE.sub(lambda it: chr(int(it[1] or it[2], 16)) if it[1] or it[2] else LETTERS.get(it[3], it[3]), word[1:-1])


def end(text: str, at: int, most: int = MOST) -> int:
    """Where the flow that begins at a place ends; the text's end where it isn't closed, or has more than `most` quotes, brackets and comments."""
    depth = 0
    for _ in range(most):
        found = EDGE.search(text, at)
        if not found:
            break
        at = found.end()
        if found[0] in "[{":
            depth += 1
        elif found[0] in "]}":
            depth -= 1
            if depth <= 0:
                return at
        elif found[0] in "\"'" and text[found.start() - 1] in " \t\r\n[{,:":
            quoted = QUOTED.match(text, found.start())
            at = quoted.end() if quoted else at
    return len(text)


def opened(text: str, at: int, most: int = MOST) -> List[Tuple[str, int]]:
    """The brackets and braces that are open at a text's end, with their places, of the flow that begins at one; none where it is closed."""
    found: List[Tuple[str, int]] = []
    pattern = EDGE if any(text.find(sign, at) >= 0 for sign in "\"'#") else SIGN
    for _ in range(most):
        edge = pattern.search(text, at)
        if not edge:
            break
        at = edge.end()
        if edge[0] in "[{":
            found.append((edge[0], edge.start()))
        elif edge[0] in "]}":
            found.pop()
            if not found:
                break
        elif edge[0] in "\"'" and text[edge.start() - 1] in " \t\r\n[{,:":
            quoted = QUOTED.match(text, edge.start())
            at = quoted.end() if quoted else at
    return found


def crossed(bare: str) -> Optional[Tuple[str, str]]:
    """The first bracket or brace of a text without quotes that is closed by a sign of the other kind, with that; None where there is none."""
    found: List[str] = []
    for sign in re.findall(r"[\[{\]}]", bare):
        if sign in "[{":
            found.append(sign)
        elif found and (found[-1] == "{") != (sign == "}"):
            return found[-1], sign
        elif found:
            found.pop()
        if not found:
            return None
    return None


def closes(line: str) -> bool:
    """Whether a line closes more brackets and braces than it opens."""
    bare = QUOTED.sub("", line[:LONGEST])
    return bare.count("]") + bare.count("}") > bare.count("[") + bare.count("{")


def ends_on_line(text: str, at: int, stop: int) -> bool:
    """Whether a flow that has neither quotes nor comments ends on its line; false where that can't be told so simply."""
    part = text[at:stop]
    if '"' in part or "'" in part or "#" in part:
        return False
    return part.count("{") == part.count("}") and part.count("[") == part.count("]")


class _Open:
    """A mapping or list that isn't closed yet, with the value that was read last and the key that waits for one."""

    def __init__(self, at: int, mark: str) -> None:
        """Begins with nothing in it."""
        self.node = Node(at, at, "map" if mark == "{" else "list", mark=mark)
        self.key: Optional[Node] = None
        self.last: Optional[Node] = None
        self.words: List[str] = []

    def take(self, node: Node) -> None:
        """Takes a value; a plain text may go on over line ends."""
        if self.words and node.kind == "text" and not node.mark:
            self.last.stop = node.stop
        else:
            self.last, self.words = node, []
        if node.kind == "text" and not node.mark:
            self.words.append(node.text)

    def done(self) -> Optional[Node]:
        """The last value, whole, which is taken out."""
        found, words = self.last, self.words
        if found is not None and len(words) > 1:
            found.text = " ".join(words)
        self.last, self.words = None, []
        return found

    def colon(self) -> None:
        """Makes the last value a key."""
        found = self.done()
        if found is not None and found.kind == "text":
            self.key = found

    def comma(self, at: int) -> None:
        """Ends a part."""
        found, key = self.done(), self.key
        self.key = None
        if self.node.kind == "list":
            self.node.items.extend([found] if found is not None else [])
        elif key is not None:
            self.node.pairs.append(Pair(key.text, key.at, found or Node(at, at, "text")))
        elif found is not None:
            self.node.pairs.append(Pair(found.text, found.at, Node(at, at, "text")))


def read(text: str, at: int, most: int = MOST) -> Tuple[Node, bool]:
    """The flow that begins at a place, and whether that is all of it; where it isn't closed, or has more than `most` marks, what there is of it."""
    stack: List[_Open] = []
    for _ in range(most):
        at = SPACE.match(text, at).end()
        found = MARK.match(text, at)
        kind = found.lastgroup if found else "close"
        if found is None or kind == "open" and len(stack) >= DEEPEST:
            break
        at = found.end()
        if kind == "open":
            stack.append(_Open(found.start(), found[0]))
        elif kind == "close":
            top = stack.pop()
            top.comma(found.start())
            top.node.stop = at
            if not stack:
                return top.node, True
            stack[-1].take(top.node)
        elif kind != "comment":
            at = _part(stack[-1], text, found.start(), kind)
    return _closed(stack, at), False


def _part(top: _Open, text: str, at: int, kind: str) -> int:
    """Takes a comma, a colon or a text into an open flow; where it ends."""
    if kind == "comma":
        top.comma(at)
    elif kind == "colon":
        top.colon()
    else:
        quoted = QUOTED.match(text, at) if kind == "quote" else None
        if quoted:
            top.take(Node(at, quoted.end(), "text", unquoted(quoted[0]), text[at]))
            return quoted.end()
        stop = PLAIN_END.search(text, at + 1).start()
        top.take(Node(at, stop, "text", text[at:stop].strip()))
        return stop
    return at + 1


def _closed(stack: List[_Open], at: int) -> Node:
    """The outermost of flows that aren't closed, with all that is in them."""
    node: Optional[Node] = None
    while stack:
        top = stack.pop()
        if node is not None:
            top.take(node)
        top.comma(at)
        top.node.stop, node = at, top.node
    return node or Node(at, at, "text")
