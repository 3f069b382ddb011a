"""Keys that change bytes: values, digits over bytes, bytes put in and taken out, undo and redo."""
import re
from dataclasses import replace
from typing import TYPE_CHECKING, List, Optional, Tuple

from front import words as reader
from front.explain import Explainer
from front.look import Spent, span_of
from front.session import Refused
from front.values import Writer
from front.view import moves
from front.view.cells import ending
from front.view.draw import LABEL
from front.view.tree import Tree

if TYPE_CHECKING:
    from front.view.desk import Desk

# The longest value that is put into the line where it is edited.
OFFERED = 2000
# The most bytes of a faulty value that are named there.
SHORT = 8
# How much of a refused line is shown.
SHOWN = 60


def ask_value(desk: "Desk") -> None:
    """Asks for a new value of the chosen node."""
    told = desk.replies.ask(f"get {desk.state.path}") if desk.state.is_node else ""
    found = re.fullmatch(r"(?!\")(?:(\S+::[a-z_]\S*) \(-?\d+\)|\S+::\? \((-?\d+)\)|hex (.*))", told)
    text = next((it for it in found.groups() if it is not None), "") if found else told
    if not desk.state.is_node or told.startswith(("object ", "[")):
        desk.state = desk.state.told("nothing to edit here: choose a value, or write over its bytes (Tab)")
        return
    is_fault = told.startswith(("fault", "error"))
    span = span_of(desk.replies.ask(f"at {desk.state.path}")) if is_fault else None
    now = f" (now {desk.replies.content(span[0], span[1] - span[0]).hex()})" if span and 0 < span[1] - span[0] <= SHORT else ""
    path = ending(desk.state.path, int(desk.state.columns * LABEL) - len("value of ") - len(now))
    desk.ask_line(f"value of {path}{now}", "" if is_fault or len(text) > OFFERED else text)


def write(desk: "Desk", text: str) -> None:
    """Writes a value over that of the chosen node."""
    path, words = desk.state.path, reader.words_of(text)
    if not words:
        return
    number = reader.number(words[0])
    if len(words) == 1 and re.fullmatch(r"-?[0-9]{1,20}", number) and desk.replies.ask(f"get {path}").startswith("fault "):
        if made(desk, f"put {path} {number}") != "error: not an integer":
            return
    made(desk, Writer(desk.explorer(), desk.opened.description()).line(path, words))


def ask_bytes(desk: "Desk") -> None:
    """Asks for bytes to put before the cursor."""
    desk.ask_line(f"insert before 0x{desk.state.place:x}")


def insert(desk: "Desk", text: str) -> None:
    """Puts bytes before the cursor."""
    digits = reader.bytes_of(reader.words_of(text))
    if digits:
        made(desk, f"ins {desk.state.place} {digits}")


def delete(desk: "Desk") -> None:
    """Takes out the byte under the cursor, or all bytes of the chosen node."""
    state = desk.state
    if state.half == "bytes":
        if state.place < desk.replies.size():
            made(desk, f"del {state.place} 1")
        return
    span = span_of(desk.replies.ask(f"at {state.path}"))
    if state.path == "/" or not span or span[0] == span[1]:
        desk.state = state.told("no bytes of its own to take out")
    else:
        made(desk, f"del {span[0]} {span[1] - span[0]}")


def digit(desk: "Desk", key: str) -> None:
    """One digit of a byte; after the second one the byte is written, or is one more at the end."""
    state = desk.state
    if not state.digit:
        desk.state = replace(state, digit=key)
        return
    is_end = state.place >= desk.replies.size()
    if made(desk, f"{'ins' if is_end else 'set'} {state.place} {state.digit}{key}").startswith("ok "):
        message = desk.state.message
        desk.state = moves.at_place(replace(desk.state, digit=""), desk.replies, state.place + 1).told(message)


def made(desk: "Desk", line: str) -> str:
    """Makes an edit, and tells what it was told."""
    told = desk.opened.keeper.make(line)
    if told.startswith("ok "):
        changed(desk, desk.opened.keeper.edits.last.edit.effect, f"{told}; u takes it back: {line}")
    else:
        desk.state = replace(desk.state, digit="").told(" ".join([f"{told}: {line[:SHOWN]}", *explained(desk, told, line)]))
    return told


def explained(desk: "Desk", told: str, line: str) -> List[str]:
    """What is said of a refused edit."""
    try:
        return [it.strip() for it in Explainer(desk.explorer(), desk.opened.description, True).explained(told, line)]
    except (Refused, Spent):
        return []


def changed(desk: "Desk", lines: Optional[Tuple[str, ...]], message: str) -> None:
    """Asks all anew, since the bytes are others, and marks those that were written."""
    desk.replies.edited()
    desk.state = replace(desk.state, digit="", found=(0, 0), written=written_by(lines or (), desk.replies.size())).told(message)
    if desk.state.half == "tree" and desk.state.is_node:
        path = Tree.of(desk.state, desk.replies).nearest(desk.state.path)
        desk.state = moves.chosen(desk.state, desk.replies, path).told(message)
    else:
        desk.state = moves.at_place(replace(desk.state, is_node=False), desk.replies, desk.state.place).told(message)


def undo(desk: "Desk") -> None:
    """Takes the last edit back."""
    if not desk.opened.keeper.edits.last:
        desk.state = desk.state.told("no edit to undo")
        return
    edit, told = desk.opened.keeper.undo()
    changed(desk, edit.inverse, f"{told}; ctrl-R makes it again; took back: {edit.line}")


def redo(desk: "Desk") -> None:
    """Makes the edit again that was taken back last."""
    if not desk.opened.keeper.edits.undone:
        desk.state = desk.state.told("no edit to make again")
        return
    edit, told = desk.opened.keeper.redo()
    changed(desk, edit.effect, f"{told}; again: {edit.line}")


def written_by(lines: Tuple[str, ...], size: int) -> Tuple[int, int]:
    """The bytes that lines of edits wrote or put in, from the first one to the last."""
    spans = []
    for it in lines:
        words = it.split()
        if words[0] in ("set", "ins"):
            spans.append((int(words[1]), int(words[1]) + len(words[2]) // 2))
        elif words[0] == "app":
            spans.append((size - len(words[1]) // 2, size))
    return (min(it[0] for it in spans), max(it[1] for it in spans)) if spans else (0, 0)
