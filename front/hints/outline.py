"""The outline of a text in YAML as ksv reads it: where its keys and the items of its lists are, found in one pass, and values that are read when asked for.

It refuses nothing. Of a text that ksv doesn't read either it has what can be made out; `is_whole` tells whether it went through all of it.
"""
from __future__ import annotations

import re
from bisect import bisect_right
from itertools import islice
from typing import Dict, Iterator, List, Match, Optional, Pattern, Tuple

from front.hints import flow
from front.hints.flow import QUOTED
from front.hints.node import Node, Pair

# A line that isn't blank and no comment, and the end of the line before one. No pattern here has a repetition that can be read in two ways.
LINE = re.compile(r"[ \t]*[^ \t\r\n#]")
NEXT = re.compile(r"\n[ \t]*[^ \t\r\n#]")
SPACES = re.compile(r" *")
GAP = re.compile(r"[ \t]*")
# A line with a plain key that has a plain value, or none on its line; perhaps after the dash of an item.
SIMPLE = re.compile(r"( *)((?:- +)?)([A-Za-z_][\w-]*):(?: +([^ \t\r\n#\"'|>{\[])|(?=[ \r]*\n))")
# Where a plain key or text ends: at a colon before white space, or before a comment.
STOP = re.compile(r":(?=[ \t\r\n]|\Z)|[ \t]#")
COMMENT = re.compile(r"[ \t]#")
MARKER = re.compile(r"---[ \t]*(?:#[^\n]*)?\r?(?:\n|\Z)")
# How many lines are read where nothing else is asked, which is also a column that no line has; and how many marks of one flow are read for each line.
ALL, MARKS = 1 << 30, 1
# How many dashes of one line are read, where ksv reads 64; and how long a key in quotes, or a value where not all is read.
DEEPEST, LONGEST = 80, 65_536


class Outline:
    """The rows of a text: each key of a block and each item of a list, with its depth and the row that comes after all that is in it."""

    def __init__(self, text: str, most: int = ALL) -> None:
        """Reads the rows of a text, as far as there are no more of them and of its lines than `most`."""
        self.text, self.is_whole, self._most = text, True, most
        self.starts: List[int] = []
        self._keys: List[Optional[str]] = []
        self._depths: List[int] = []
        self._stops: List[int] = []
        self._values: List[int] = []
        self._nodes: Dict[int, Node] = {}
        self._open: List[int] = []
        self._edges: Dict[int, Pattern[str]] = {}
        self._alone = -1
        self._read(most)
        for row in self._open:
            self._stops[row] = len(self.starts)

    def _read(self, most: int) -> None:
        """Reads line after line; a line that goes on a text of the row before it is passed over."""
        text, size, deepest = self.text, len(self.text), ALL
        at = self._significant(1 if text.startswith("\ufeff") else 0)
        marker = MARKER.match(text, at)
        at = self._significant(marker.end()) if marker else at
        for _ in range(most):
            if at >= size:
                return
            simple = SIMPLE.match(text, at)
            begin, first = at, simple.end(1) if simple else SPACES.match(text, at).end()
            end = text.find("\n", first)
            end = size if end < 0 else end
            if first - begin > deepest:
                at = self._past(at, deepest)
            elif simple:
                at, deepest = end + 1, self._simple(begin, simple)
            else:
                at, deepest = self._line(first, first - begin, end)
            at = self._significant(at)
        self.is_whole = at >= size

    def _significant(self, at: int) -> int:
        """Where the first line begins, from the beginning of a line on, that isn't blank and no comment."""
        if LINE.match(self.text, at):
            return at
        found = NEXT.search(self.text, at)
        return found.start() + 1 if found else len(self.text)

    def _simple(self, begin: int, found: Match[str]) -> int:
        """Adds the rows of a simple line; the column below which the next lines belong to its text."""
        dash, at, value = found.start(2), found.start(3), found.start(4)
        if dash != at:
            self._add(dash, 2 * (dash - begin) + 1, None)
        self._add(at, 2 * (at - begin), found[3], value)
        return ALL if value < 0 else at - begin

    def _line(self, at: int, column: int, end: int) -> Tuple[int, int]:
        """Adds the rows of a line; where the next line begins, and the column below which the next lines belong to this one's text."""
        text, dash = self.text, -1
        for _ in range(DEEPEST):
            if not text.startswith("-", at) or at + 1 < end and text[at + 1] not in " \t\r":
                break
            self._add(at, 2 * column + 1, None)
            dash, after = column, GAP.match(text, at + 1).end()
            column, at = column + after - at, after
            if at >= end or text[at] in "#\r\n":
                return end + 1, ALL
        key, value = self._key(at, end)
        if key is None:
            if dash >= 0:
                self._values[-1] = at
            return self._next(at, dash if dash >= 0 else self._below(at, column), end)
        self._add(at, 2 * column, key)
        if value >= end or text[value] in "#\r\n":
            return end + 1, ALL
        self._values[-1] = value
        return self._next(value, column, end)

    def _below(self, at: int, column: int) -> int:
        """Gives a value that begins on a line of its own to the row that it is below; the column of that, -1 for the whole text."""
        last = len(self.starts) - 1
        if last < 0:
            self._alone = at if self._alone < 0 else self._alone
        elif self._values[last] < 0 and self._depths[last] < 2 * column:
            self._values[last] = at
            return self._depths[last] // 2
        return -1 if last < 0 else column

    def _add(self, at: int, depth: int, key: Optional[str], value: int = -1) -> None:
        """Adds a row, and closes those that it isn't in."""
        row, depths, unclosed = len(self.starts), self._depths, self._open
        while unclosed and depths[unclosed[-1]] >= depth:
            self._stops[unclosed.pop()] = row
        unclosed.append(row)
        self.starts.append(at)
        depths.append(depth)
        self._keys.append(key)
        self._stops.append(row + 1)
        self._values.append(value)

    def _key(self, at: int, end: int) -> Tuple[Optional[str], int]:
        """The key that begins at a place, and where its value does; None where there is none."""
        text = self.text
        first = text[at]
        if first in "\"'":
            quoted = QUOTED.match(text, at, min(end, at + LONGEST))
            after = GAP.match(text, quoted.end()).end() if quoted else end
            if not quoted or not STOP.match(text, after):
                return None, at
            return flow.unquoted(quoted[0]), GAP.match(text, after + 1).end()
        if first in "{[":
            return None, at
        stop = STOP.search(text, at, end + 1)
        if not stop or stop[0] != ":":
            return None, at
        return text[at : stop.start()].rstrip(" \t"), GAP.match(text, stop.end()).end()

    def _next(self, value: int, column: int, end: int) -> Tuple[int, int]:
        """Where the first line after a value begins, and the column below which lines still belong to it."""
        first = self.text[value]
        if first in "|>":
            return self._past(end, column), ALL
        if first in "{[":
            if flow.ends_on_line(self.text, value, end):
                return end + 1, ALL
            stop = self.text.find("\n", flow.end(self.text, value, MARKS * self._most))
            return len(self.text) if stop < 0 else stop + 1, ALL
        return end + 1, column

    def _past(self, at: int, column: int) -> int:
        """Where the first line from a place on begins that has text at this column or before it."""
        if column < 0:
            return len(self.text)
        if column not in self._edges:
            self._edges[column] = re.compile(r"\n {0,%d}[^ \r\n]" % column)
        found = self._edges[column].search(self.text, max(at - 1, 0))
        return found.start() + 1 if found else len(self.text)

    # What is read when it is asked for

    @property
    def root(self) -> Node:
        """All of the text."""
        return self.node(-1)

    def line(self, at: int) -> int:
        """The number of the line that has a place, from 1."""
        return self.text.count("\n", 0, at) + 1

    def below(self, row: int) -> Iterator[int]:
        """The rows directly in one, -1 for the whole text."""
        at, stop = row + 1, self._stops[row] if row >= 0 else len(self.starts)
        while at < stop:
            yield at
            at = self._stops[at]

    def _end(self, row: int) -> int:
        """Where all that is in a row ends."""
        after = self._stops[row] if row >= 0 else len(self.starts)
        return self.starts[after] if after < len(self.starts) else len(self.text)

    def node(self, row: int) -> Node:
        """The value of a row, which is made once."""
        if row not in self._nodes:
            self._nodes[row] = self._made(row)
        return self._nodes[row]

    def _made(self, row: int) -> Node:
        """The value of a row: what is on its line, or the rows in it."""
        value = self._values[row] if row >= 0 else self._alone if not self.starts else -1
        if value < 0 and self._has_rows(row):
            return Node(self.starts[row + 1], self._end(row), "rows", owner=self, row=row)
        if value < 0:
            at = self.starts[row] if row >= 0 else 0
            return Node(at, at, "text")
        if self.text[value] in "{[":
            node, is_all = flow.read(self.text, value, MARKS * self._most)
            self.is_whole = self.is_whole and is_all
            return node
        return self._scalar(value, self._end(row))

    def _has_rows(self, row: int) -> bool:
        """Whether there is a row in one."""
        return row + 1 < (self._stops[row] if row >= 0 else len(self.starts))

    def between(self, row: int, begin: int, end: int) -> Tuple[List[Pair], List[Node]]:
        """The pairs or the items directly in a row that have something from a place to another."""
        rows = [it for it in self.below(row) if self.starts[it] < end and self._end(it) >= begin]
        if self.kind(row) == "map":
            return [Pair(self._keys[it] or "", self.starts[it], self.node(it)) for it in rows], []
        return [], [self.node(it) for it in rows]

    def contents(self, row: int, most: int = ALL) -> Tuple[List[Pair], List[Node]]:
        """The pairs or the items directly in a row, the first of them."""
        rows, keys = list(islice(self.below(row), most)), self._keys
        if self.kind(row) == "map":
            return [Pair(keys[it], self.starts[it], self.node(it)) for it in rows if keys[it] is not None], []
        return [], [self.node(it) for it in rows if keys[it] is None]

    def kind(self, row: int) -> str:
        """What is directly in a row that has others in it: a `map` or a `list`."""
        return "list" if self._keys[row + 1] is None else "map"

    def value(self, row: int, key: str) -> Optional[Node]:
        """The value of the first of the keys directly in a row that is this one."""
        return next((self.node(it) for it in self.below(row) if self._keys[it] == key), None)

    def _scalar(self, value: int, end: int) -> Node:
        """A text: quoted, plain or as a block."""
        text = self.text
        end = min(end, value + (ALL if self._most == ALL else LONGEST))
        quoted = QUOTED.match(text, value, end)
        if quoted:
            return Node(value, quoted.end(), "text", flow.unquoted(quoted[0]), text[value])
        lines = text[value:end].rstrip().split("\n")
        if text[value] in "|>":
            return Node(value, end, "text", "\n".join(it.strip() for it in lines[1:]), text[value])
        bare = [it[: found.start()] if (found := COMMENT.search(it)) else it for it in lines if not it.lstrip().startswith("#")]
        return Node(value, end, "text", " ".join(it.strip() for it in bare if it.strip()))

    def row_at(self, at: int) -> int:
        """The last row that begins at a place or before it; -1 where there is none."""
        return bisect_right(self.starts, at) - 1

    def column(self, row: int) -> int:
        """How many characters of its line come before a row."""
        return self._depths[row] // 2

    def key(self, row: int) -> Optional[str]:
        """The key that a row is; None of an item."""
        return self._keys[row]

    def inline(self, row: int) -> str:
        """The first letter of the value on a row's own line; the empty text where there is none."""
        return self.text[self._values[row]] if self._values[row] >= 0 else ""

    def around(self, row: int) -> List[int]:
        """The rows that a row is in, and those beside which a row after it may be, from the last one outwards, itself the first."""
        found = [row] if row >= 0 else []
        for it in range(row - 1, -1, -1):
            if not self._depths[found[-1]]:
                break
            if self._depths[it] < self._depths[found[-1]]:
                found.append(it)
        return found
