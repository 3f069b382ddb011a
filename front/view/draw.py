"""A screen as rows of cells, made of its state and a function that answers questions."""
import re
from dataclasses import dataclass
from typing import Callable, List, Optional, Tuple

from front.description import Description
from front.look import span_of
from front.texts import columns, visible
from front.view import about, octets, readings
from front.view.cells import Row, Span, cut, fitted, held, wrapped
from front.view.help import BACK, KEYS, TITLE, keys_of, lines_of
from front.view.octets import Grid
from front.view.replies import Replies
from front.view.state import State
from front.view.tree import Tree

# The least columns that have room for both halves, and the least rows of them; the lines about the chosen node; the lines of readings in a wide and in a
# narrow screen.
BOTH, BODY, ABOUT, READINGS, NARROW_READINGS = 72, 6, 4, 5, 12
# The least columns of a row beside its place.
LEAST_ROOM = 12
# How much of the last row says what is typed there, and the most rows of a message.
LABEL, MESSAGE = 2 / 3, 3
# The length of values of which none is a number.
LONGEST_NUMBER = 300


@dataclass(frozen=True)
class Told:
    """What is known of the session besides the file's bytes: names, and how many edits hold and whether they are saved."""

    file: str
    ksy: str
    edits: str
    description: Callable[[], Description]


@dataclass(frozen=True)
class Screen:
    """Rows of cells, and the row and column of the terminal's cursor, if it is shown."""

    rows: List[Row]
    cursor: Optional[Tuple[int, int]] = None


@dataclass(frozen=True)
class Layout:
    """How many columns each half has (0 where it isn't shown), and how many rows they and what is below them have."""

    tree: int
    grid: Optional[Grid]
    body: int
    about: int
    readings: int

    @classmethod
    def of(cls, state: State, size: int) -> "Layout":
        """What there is room for."""
        lines = ABOUT if state.rows >= 16 else 2 if state.rows >= 10 else 0
        free = max(1, state.rows - 2 - lines)
        below = min(READINGS if state.columns >= 80 else NARROW_READINGS, free // 2, max(0, free - BODY))
        body = free - below
        if state.columns < BOTH:
            if state.half == "tree":
                return cls(state.columns, None, body, lines, below)
            return cls(0, Grid.of(size, state.columns, body), body, lines, below)
        grid = Grid.of(size, max(40, state.columns * 58 // 100), body)
        return cls(state.columns - grid.width - 1, grid, body, lines, below)


def drawn(state: State, replies: Replies, told: Told) -> Screen:
    """The whole screen."""
    if state.help_from is not None:
        return helped(state, state.help_from)
    layout = Layout.of(state, replies.size())
    below = below_of(state, replies, told, layout)
    marked, halves, cursor = marked_of(state, replies), [], None
    if layout.tree:
        halves.append([title(state, replies, told, layout.tree), *tree_rows(state, replies, layout)])
    if layout.grid:
        rows, (line, column) = octets.rows_of(state, replies, layout.grid, marked)
        halves.append([octets.heading(layout.grid), *rows])
        cursor = (line + 1, column + (layout.tree + 1 if layout.tree else 0)) if state.half == "bytes" else None
    rows = [fitted([it for half in both for it in (*half, Span(" "))][:-1], state.columns) for both in zip(*halves)]
    most = max(1, min(MESSAGE, 1 + layout.about + layout.readings))
    last, typed_at = last_rows(state, state.is_node and replies.ask(f"at {state.path}") == "calculated", most)
    above = [*rows, *below][: max(1, state.rows - len(last))]
    return Screen([*above, *last][: state.rows], (state.rows - 1, typed_at) if typed_at is not None else cursor)


def marked_of(state: State, replies: Replies) -> Tuple[int, int]:
    """The bytes of the chosen node."""
    return (span_of(replies.ask(f"at {state.path}")) if state.is_node else None) or (0, 0)


def title(state: State, replies: Replies, told: Told, width: int) -> Row:
    """The first row of the tree's half: the file, its edits and its size."""
    text = "  ".join(it for it in (told.file, told.edits, f"{replies.size()} bytes") if it)
    return fitted([Span(text, "dim")], width, "dim")


# The tree


def tree_rows(state: State, replies: Replies, layout: Layout) -> List[Row]:
    """The rows of the tree's half."""
    tree = Tree.of(state, replies)
    paths, _ = tree.around(state.path, state.line, layout.body)
    replies.ask_all([f"{word} {it}" for it in paths for word in ("get", "at")])
    rows = [tree_row(state, replies, tree, it, layout.tree) for it in paths]
    return rows + [fitted([], layout.tree)] * (layout.body - len(rows))


def tree_row(state: State, replies: Replies, tree: Tree, path: str, width: int) -> Row:
    """The row of one path: whether it is chosen, whether it changed, whether it is open, its name, its value and its place."""
    value, where = replies.ask(f"get {path}"), replies.ask(f"at {path}")
    is_changed = is_other(replies, f"get {path}", value)
    is_moved = is_other(replies, f"at {path}", where)
    depth = path.count("/") if path != "/" else 0
    chosen = ("chosen" if state.half == "tree" else "mate") if path == state.path and state.is_node else ""
    place = short_place(where)
    front = f"{'>' if chosen else ' '}{'*' if is_changed else ' '}{' ' * min(2 * depth, width // 3)}{mark_of(tree, path, value, where)} "
    name = path.rpartition("/")[2] or "/"
    place = place if width - columns(place) > LEAST_ROOM else ""
    room = width - (columns(place) + 1 if place else 0)
    kind = "dim" if is_absent(value, path) else "fault" if value.startswith(("fault", "error")) else "changed" if is_changed else "plain"
    spans = [Span(front, chosen), Span(name, f"name {chosen}"), Span("  ", chosen), Span(shown(value, path, state.is_hex), f"{kind} {chosen}")]
    row = fitted(spans, max(1, room), chosen)
    return fitted([*row, Span(f" {place}", f"{'changed' if is_moved else 'dim'} {chosen}")] if place else row, width, chosen)


def is_other(replies: Replies, line: str, told: str) -> bool:
    """Whether a reply was another one before the last edit."""
    was = replies.was(line)
    return was is not None and was != told


def mark_of(tree: Tree, path: str, value: str, where: str) -> str:
    """`+` before what can be opened, `-` before what is open, `=` before what is found elsewhere."""
    if where == "calculated":
        return "=" if value.startswith("object ") else " "
    if not value.startswith(("object ", "[", "fault ")) or not tree.has_below(path):
        return " "
    return "-" if tree.opened is not None and path in tree.opened else "+"


def is_absent(value: str, path: str) -> bool:
    """Whether something isn't there by its own condition."""
    return value == f"fault absent at {path}"


def shown(value: str, path: str, is_hex: bool) -> str:
    """A value as a row has it: the reply, with integers in hexadecimal digits where that is wanted. A fault that arose here hasn't its path once more."""
    if is_absent(value, path):
        return "absent"
    if value.startswith("fault ") and value.endswith(f" at {path}"):
        return value[: -len(f" at {path}")]
    if is_hex and len(value) < LONGEST_NUMBER:
        return re.sub(r"^-?\d+$|(?<=\()-?\d+(?=\)$)", lambda found: f"{int(found[0]):#x}", value)
    return value


def short_place(where: str) -> str:
    """A place in hexadecimal digits, or that there is none."""
    found = re.fullmatch(r"at (\d+)((?:\.\d)?) (\d+)((?:\.\d)?)", where)
    if found:
        return f"{int(found[1]):x}{found[2]}-{int(found[3]):x}{found[4]}"
    return "calc" if where == "calculated" else ""


# What is below both halves


def below_of(state: State, replies: Replies, told: Told, layout: Layout) -> List[Row]:
    """The rows about the chosen node, and those of what the bytes at the cursor are."""
    rows: List[Row] = []
    if layout.about:
        if state.is_node:
            lines = about.lines_of(replies, told.description, told.ksy, state.path, state.columns, layout.about)
        else:
            lines = [f"no member has the byte {state.place} (0x{state.place:x})", *[""] * layout.about]
        rows = [fitted([Span(it, style)], state.columns, style) for it, style in zip(lines[: layout.about], ("bar", "plain", "plain", "plain"))]
    if layout.readings:
        first, count = about.bits_at(replies.ask(f"at {state.path}")) if state.is_node and is_first_byte(state, replies) else (0, 8)
        some = replies.content(state.place, readings.READ)
        is_known = bool(some) or state.place >= replies.size()
        found = readings.lines_of(some, state.columns, first, count)[: layout.readings] if is_known else []
        rows += [fitted([Span(it)], state.columns) for it in found]
        rows += [fitted([], state.columns)] * (layout.readings - len(found))
    return rows


def is_first_byte(state: State, replies: Replies) -> bool:
    """Whether the cursor is on the first byte of the chosen node."""
    return marked_of(state, replies)[0] == state.place


def last_rows(state: State, is_calculated: bool, most: int) -> Tuple[List[Row], Optional[int]]:
    """The last rows: the line that is typed, and the column of its cursor; else a message, in as many rows as it takes, or the keys that there are."""
    if state.typed:
        label = f"{cut(state.typed.purpose, int(state.columns * LABEL))}: "
        room = max(1, state.columns - columns(label) - 1)
        text = "".join(it if it.isprintable() else "?" for it in state.typed.text)
        start = max(0, state.typed.at - room)
        while columns(text[start : state.typed.at]) > room:
            start += 1
        shown_text = text[start:][: held(text[start:], room)]
        row = fitted([Span(label, "key"), Span(shown_text, "offered" if state.typed.is_offered else "plain")], state.columns)
        return [row], min(state.columns - 1, columns(label) + columns(text[start : state.typed.at]))
    if state.message:
        return [fitted([Span(it, "message")], state.columns, "message") for it in wrapped(visible(state.message), state.columns, most)], None
    keys = keys_of(state.half, state.columns, is_calculated)
    return [fitted([it for key, what in keys for it in (Span("  " if key != keys[0][0] else ""), Span(key, "key"), Span(f" {what}"))], state.columns)], None


def helped(state: State, first: int) -> Screen:
    """The page of help."""
    rows = [fitted([Span(TITLE, "bar")], state.columns, "bar")]
    lines = lines_of(state.columns)
    rows += [fitted([Span(f"{key:<{KEYS}}", "key"), Span(f" {what}")], state.columns) for key, what in lines[first : first + max(0, state.rows - 2)]]
    rows += [fitted([], state.columns)] * (state.rows - 1 - len(rows))
    return Screen([*rows, fitted([Span(BACK if first + state.rows - 2 >= len(lines) else f"Down PgDn: more; {BACK}", "message")], state.columns)][: state.rows])
