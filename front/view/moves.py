"""Where keys lead: from a state to another one, by questions alone."""
from dataclasses import replace
from typing import Callable, Dict, Optional

from front.look import Explorer, Search, span_of
from front.view.draw import Layout
from front.view.octets import Grid
from front.view.replies import Replies
from front.view.state import State, fronts, parent
from front.view.tree import Tree


# A row that is still to be found.
ANY = -1


def chosen(state: State, replies: Replies, path: str, line: int = ANY) -> State:
    """With a node chosen, in a row of the tree's half; the cursor is on its first byte, if it has a place."""
    span = span_of(replies.ask(f"at {path}"))
    place = min(span[0], replies.size()) if span else state.place
    return replace(state, path=path, line=line if path != state.path or line != ANY else state.line, is_node=True, place=place, digit="")


def at_place(state: State, replies: Replies, place: int) -> State:
    """With the cursor on a byte, and the node chosen that has it."""
    place = max(0, min(place, replies.size()))
    if place == state.place and state.is_node and not state.digit:
        return state
    state = replace(state, place=place, digit="")
    if place >= replies.size():
        return replace(state, is_node=False)
    found = Search(Explorer(replies), place).run()
    notes = " ".join(it.strip() for it in found.notes())
    if not found.best:
        return replace(state, is_node=False, message=notes)
    line = state.line if found.best == state.path else ANY
    return replace(state, path=found.best, line=line, is_node=True, message=notes or shared(replies, found.best, place))


def shared(replies: Replies, path: str, place: int) -> str:
    """What else has bits of a byte that a node has bits of."""
    explorer = Explorer(replies)
    others = [it for it in explorer.sharing(path, place) if it != path] if explorer.is_within(path) else []
    return f"bits of this byte are also of {', '.join(it.rpartition('/')[2] for it in others)}" if others else ""


def settled(state: State, replies: Replies, was: Optional[State] = None) -> State:
    """The state with what has to fit: a node that is there, a place in the file, rows and bytes that are on the screen. The first row stays where it was, if
    the chosen one is then on the screen."""
    tree = Tree.of(state, replies)
    path = tree.nearest(state.path)
    if path != state.path:
        state = replace(state, path=path, line=ANY)
        tree = Tree.of(state, replies)
    state = replace(state, place=min(state.place, replies.size()))
    layout = Layout.of(state, replies.size())
    line = state.line if state.line != ANY else line_of(state, replies, was or state, layout.body)
    _, line = tree.around(path, max(0, min(line, layout.body - 1)), layout.body)
    top = layout.grid.top(state.top, state.place) if layout.grid else state.top
    return replace(state, line=line, top=top)


def line_of(state: State, replies: Replies, was: State, height: int) -> int:
    """The row in which a node is, if the row above all stays; else a third down."""
    old = Tree.of(was, replies)
    before, _ = old.around(was.path, was.line, height) if was.line != ANY and old.has(was.path) else ([], 0)
    tree = Tree.of(state, replies)
    top = before[0] if before and tree.has(before[0]) else None
    at, count = top, 0
    while at is not None and count < height:
        if at == state.path:
            return count
        at, count = tree.next(at), count + 1
    return height // 3


# Keys in the tree


def up(state: State, replies: Replies, _height: int) -> State:
    """The row above."""
    found = Tree.of(state, replies).previous(state.path)
    return chosen(state, replies, found, max(0, state.line - 1)) if found else state


def down(state: State, replies: Replies, height: int) -> State:
    """The row below."""
    found = Tree.of(state, replies).next(state.path)
    return chosen(state, replies, found, min(height - 1, state.line + 1)) if found else state


def page(state: State, replies: Replies, height: int, is_down: bool) -> State:
    """As many rows further as the tree's half has."""
    tree, path = Tree.of(state, replies), state.path
    for _ in range(height):
        found = tree.next(path) if is_down else tree.previous(path)
        if found is None:
            break
        path = found
    return chosen(state, replies, path, state.line)


def right(state: State, replies: Replies, height: int) -> State:
    """Opens a node, or goes in."""
    tree = Tree.of(state, replies)
    if not tree.has_below(state.path):
        return state
    if state.path in state.open:
        return down(state, replies, height)
    return replace(state, open=state.open | {state.path})


def left(state: State, replies: Replies, _height: int) -> State:
    """Closes a node, or goes out."""
    if state.path in state.open and state.path != "/" and Tree.of(state, replies).has_below(state.path):
        return replace(state, open=state.open - {state.path})
    return chosen(state, replies, parent(state.path))


def last(state: State, replies: Replies, height: int) -> State:
    """The last row."""
    return chosen(state, replies, Tree.of(state, replies).last("/"), height - 1)


TREE: Dict[str, Callable[[State, Replies, int], State]] = {
    "up": up,
    "down": down,
    "pgup": lambda state, replies, height: page(state, replies, height, False),
    "pgdn": lambda state, replies, height: page(state, replies, height, True),
    "right": right,
    "left": left,
    "home": lambda state, replies, height: chosen(state, replies, "/", 0),
    "end": last,
}


def tree_move(state: State, replies: Replies, key: str) -> Optional[State]:
    """The state after a key in the tree; None where it moves nothing."""
    if key not in TREE:
        return None
    height = Layout.of(state, replies.size()).body
    opened = replace(state, open=state.open | fronts(state.path))
    return TREE[key](opened, replies, height)


def bytes_move(state: State, replies: Replies, key: str) -> Optional[State]:
    """The state after a key over bytes; None where it moves nothing."""
    size = replies.size()
    grid = Layout.of(state, size).grid or Grid.of(size, state.columns, 1)
    screen = grid.row * grid.height
    steps = {"left": -1, "right": 1, "up": -grid.row, "down": grid.row, "pgup": -screen, "pgdn": screen, "home": -state.place, "end": size - 1 - state.place}
    if key not in steps:
        return None
    place = state.place + steps[key]
    if key in ("up", "down") and not 0 <= place <= size:
        return state
    moved = at_place(state, replies, place)
    if key in ("pgup", "pgdn"):
        moved = replace(moved, top=max(0, min(state.top + steps[key], size // grid.row * grid.row)))
    return moved
