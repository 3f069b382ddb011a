"""The right half: bytes in rows, with those of the chosen node in brackets."""
from dataclasses import dataclass
from typing import List, Tuple

from front.view.cells import Row, Span, fitted
from front.view.replies import Replies
from front.view.state import State

# The least width of places, in hexadecimal digits.
DIGITS = 4


@dataclass(frozen=True)
class Grid:
    """How bytes are laid out: digits of a place, bytes of a row, and rows."""

    digits: int
    row: int
    height: int

    @classmethod
    def of(cls, size: int, width: int, height: int) -> "Grid":
        """What there is room for, with as many bytes in a row as 16, 8 or 4."""
        digits = max(DIGITS, len(f"{size:x}"))
        row = next((it for it in (16, 8) if cls(digits, it, 1).width <= width), 4)
        return cls(digits, row, max(1, height))

    @property
    def width(self) -> int:
        """How many columns it takes."""
        return self.digits + 4 * self.row + 1

    def top(self, top: int, place: int) -> int:
        """The first byte that is shown, so that a place is among those that are: it stays if it can, and else the place comes near the middle."""
        top, own = top // self.row * self.row, place // self.row * self.row
        last = top + (self.height - 1) * self.row
        if top <= own <= last:
            return top
        if own + self.row == top:
            return own
        if own - self.row == last:
            return top + self.row
        return max(0, own - self.height // 3 * self.row)


def heading(grid: Grid) -> Row:
    """The numbers of columns."""
    return fitted([Span(" " * grid.digits + "".join(f" {it:2x}" for it in range(grid.row)), "dim")], grid.width, "dim")


def rows_of(state: State, replies: Replies, grid: Grid, marked: Tuple[int, int]) -> Tuple[List[Row], Tuple[int, int]]:
    """The rows of bytes, and the row and column of the byte under the cursor."""
    top = grid.top(state.top, state.place)
    some = replies.content(top, grid.row * grid.height)
    rows = []
    for line in range(grid.height):
        start = top + line * grid.row
        rows.append(row_of(state, some[line * grid.row :][: grid.row], start, grid, marked) if start <= top + len(some) else fitted([], grid.width))
    line, at = divmod(state.place - top, grid.row)
    return rows, (line, grid.digits + 1 + 3 * at + len(state.digit))


def row_of(state: State, some: bytes, start: int, grid: Grid, marked: Tuple[int, int]) -> Row:
    """One row of bytes."""
    spans = [Span(f"{start:0{grid.digits}x}", "dim")]
    letters = []
    for at in range(grid.row + 1):
        place = start + at
        spans.append(between(place, at, marked))
        if at == grid.row:
            break
        style = style_of(state, place, marked)
        if at < len(some):
            digits = f"{state.digit}_" if state.digit and place == state.place else f"{some[at]:02x}"
            letters.append(Span(chr(some[at]) if 32 <= some[at] < 127 else ".", style))
        else:
            digits = f"{state.digit or ' '} " if place == state.place else "  "
            style = "cursor" if "cursor" in style.split() else "plain"
            letters.append(Span(" "))
        spans.append(Span(digits, style))
    return fitted(spans + letters, grid.width)


def between(place: int, at: int, marked: Tuple[int, int]) -> Span:
    """What is between a byte and the one before it: a space, or where the mark begins or ends. Each row has brackets of its own."""
    before, after = marked[0] <= place - 1 < marked[1] and at > 0, marked[0] <= place < marked[1]
    if at == 0:
        return Span("[" if place == marked[0] < marked[1] else " ")
    if before and place == marked[1]:
        return Span("]")
    return Span("[" if place == marked[0] < marked[1] else " ", "marked" if before and after else "plain")


def style_of(state: State, place: int, marked: Tuple[int, int]) -> str:
    """How a byte is shown: the words of all that it is."""
    spans = (("marked", marked), ("written", state.written), ("found", state.found))
    words = [name for name, span in spans if span[0] <= place < span[1]]
    return " ".join([*words, *(["cursor"] if place == state.place and state.half == "bytes" else [])]) or "plain"
