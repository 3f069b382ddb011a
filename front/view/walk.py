"""Walks over the whole tree, also where it is closed, and over all bytes: the next fault, the next member of a name, the next place of some bytes."""
import re
from typing import Iterator, Optional, Tuple

from front.view.replies import Replies
from front.view.state import parent
from front.view.tree import Tree

# How many questions a walk asks before it is given up, how many elements of a list are asked at once, and how many bytes.
MOST_ASKED, TOGETHER, PIECE = 400_000, 256, 1 << 18


class GivenUp(Exception):
    """A walk that asked as many questions as it may; the path that it got to, and whether it had come to the root by then."""

    def __init__(self, path: str, is_round: bool) -> None:
        super().__init__(path)
        self.path, self.is_round = path, is_round


def paths_after(replies: Replies, path: str, most: int = MOST_ASKED, given_up: Optional[GivenUp] = None) -> Iterator[str]:
    """All paths below a row of a tree in which all is open, and then those from the root on down to it; or those of them that a walk didn't get to."""
    tree, until = Tree(replies, None), replies.asked + most
    at, is_round = (given_up.path, given_up.is_round) if given_up else (path, False)
    while not is_round or at != path:
        if replies.asked > until:
            raise GivenUp(at, is_round)
        ahead(replies, at)
        found = tree.next(at, is_open_value(replies, at) and not is_inside_itself(replies, at))
        if found is None and is_round:
            return
        at, is_round = found or "/", is_round or found is None
        yield at


def is_open_value(replies: Replies, path: str) -> bool:
    """Whether there can be something below a path, by its value."""
    return replies.ask(f"get {path}").startswith(("object ", "[", "fault "))


def is_inside_itself(replies: Replies, path: str) -> bool:
    """Whether an object is what it is in once more, by its type and its place: as a folder's entry for the folder itself. A walk would have no end there."""
    told, place, at = replies.ask(f"get {path}"), replies.ask(f"at {path}"), path
    while at != "/" and told.startswith("object ") and place.startswith("at "):
        at = parent(at)
        if replies.ask(f"get {at}") == told and replies.ask(f"at {at}") == place:
            return True
    return False


def ahead(replies: Replies, path: str) -> None:
    """Asks for the values of the next elements of a list, all at once."""
    step = path.rpartition("/")[2]
    if step.isdigit() and int(step) % TOGETHER == 0:
        found = re.fullmatch(r"\[(\d+)\]", replies.ask(f"ls {parent(path)}"))
        if found:
            front = parent(path)
            replies.ask_all([f"get {front if front != '/' else ''}/{it}" for it in range(int(step), min(int(found[1]), int(step) + TOGETHER))])


def next_fault(replies: Replies, path: str, most: int = MOST_ASKED, given_up: Optional[GivenUp] = None) -> Optional[str]:
    """The next path below a row, or else from the root on, whose fault arose there, or at a path that the tree hasn't."""
    for it in paths_after(replies, path, most, given_up):
        if is_own_fault(replies, it):
            return it
    return None


def is_own_fault(replies: Replies, path: str) -> bool:
    """Whether the value at a path is a fault that is to be looked at there. What is absent is none."""
    found = re.fullmatch(r"fault (\S+) at (\S+)", replies.ask(f"get {path}"))
    if not found or found[2] == path:
        return bool(found) and found[1] != "absent"
    return not Tree(replies, None).has(found[2])


def next_named(replies: Replies, path: str, text: str, most: int = MOST_ASKED, given_up: Optional[GivenUp] = None) -> Optional[str]:
    """The next path below a row, or else from the root on, whose last step has a text in it."""
    return next((it for it in paths_after(replies, path, most, given_up) if text in it.rpartition("/")[2]), None)


def next_bytes(replies: Replies, wanted: bytes, place: int) -> Optional[Tuple[int, int]]:
    """The next place of some bytes from a place on, or else from the first byte on."""
    size = replies.size()
    for begin, end in ((place, size), (0, min(size, place + len(wanted) - 1))):
        at = begin
        while at < end:
            some = replies.piece(at, min(PIECE, end - at) + len(wanted) - 1)
            found = some.find(wanted)
            if found >= 0:
                return at + found, at + found + len(wanted)
            at += PIECE
    return None
