"""Keys that go elsewhere: to a path or a place, to what is searched, to the next fault."""
import re
from dataclasses import replace
from typing import TYPE_CHECKING, List, Optional

from front import words as reader
from front.explain import Explainer
from front.view import moves, walk
from front.view.state import Sought
from front.view.tree import Tree
from front.words import Misread

if TYPE_CHECKING:
    from front.view.desk import Desk


def fault(desk: "Desk") -> None:
    """Goes to the next fault."""
    was = desk.state.path
    found = walk.next_fault(desk.replies, was, desk.most_walked, desk.given_up.get("f"))
    if found is None:
        is_here = walk.is_own_fault(desk.replies, was)
        desk.state = desk.state.told("no other fault" if is_here else "no faults")
    else:
        desk.go(found)
        desk.state = desk.state.told("no other fault" if found == was else "")


def ask_where(desk: "Desk") -> None:
    """Asks for a path or a place."""
    desk.ask_line("go to /path or 0x1f")


def go_to(desk: "Desk", text: str) -> None:
    """Goes to a path or a place."""
    text = text.strip()
    words = reader.words_of(text)
    place = reader.place(words[0]) if len(words) == 1 and not text.startswith("/") else None
    if not text:
        return
    if place is not None:
        desk.state = moves.at_place(replace(desk.state, is_node=False), desk.replies, place)
        if place > desk.replies.size():
            desk.state = desk.state.told(f"no byte {place}: the file has {desk.replies.size()}")
        return
    path = absolute(text, desk.state.path)
    if Tree(desk.replies, None).has(path):
        desk.go(path)
        return
    told = desk.replies.ask(f"get {path}")
    said = Explainer(desk.explorer(), desk.opened.description, True).explained(told, f"get {path}")
    desk.state = desk.state.told(" ".join([f"no {path}", *(it.strip() for it in said)]))


def absolute(text: str, front: str) -> str:
    """A path from the root on, also of one that is written from a node on."""
    steps: List[str] = [] if text.startswith("/") else front.split("/")
    for it in text.split("/"):
        steps = steps[:-1] if it == ".." else steps if it in ("", ".") else [*steps, it]
    return "/" + "/".join(it for it in steps if it)


def ask_text(desk: "Desk") -> None:
    """Asks what to search for."""
    desk.ask_line("search name, text or hex")


def search(desk: "Desk", text: str) -> None:
    """Searches for a name, else a text, else bytes."""
    if text:
        desk.state = replace(desk.state, sought=Sought(text, "", b""))
        again(desk)


def kinds_of(text: str, description: str) -> List[Sought]:
    """What a text may mean that is searched for, in the order in which it is tried: a name is one that the description has."""
    if text.startswith('"') or re.match(r"0[xX]", text):
        digits = reader.bytes_of(reader.words_of(text))
        if not re.fullmatch(r"(?:[0-9a-fA-F]{2})+", digits):
            raise Misread('bytes are wanted here, as 0x0aff, or a "TEXT"')
        return [Sought(text, "bytes" if text.startswith("0") else "text", bytes.fromhex(digits))]
    found = [Sought(text, "name")] if re.fullmatch(r"[a-z0-9_]*[a-z_][a-z0-9_]*", text) and text in description else []
    found.append(Sought(text, "text", text.encode(errors="surrogateescape")))
    digits = re.sub(r"\s+", "", text)
    return found + ([Sought(text, "bytes", bytes.fromhex(digits))] if re.fullmatch(r"(?:[0-9a-fA-F]{2})+", digits) else [])


def again(desk: "Desk") -> None:
    """Goes to the next thing that was searched for. Which kind it is is known from the first time on."""
    sought = desk.state.sought
    if not sought:
        desk.state = desk.state.told("nothing was searched for: / searches")
        return
    for it in [sought] if sought.kind else kinds_of(sought.text, desk.opened.text.decode(errors="replace")):
        if is_found(desk, it):
            return
    desk.state = desk.state.told(f"not found: {sought.text}")


def is_found(desk: "Desk", sought: Sought) -> bool:
    """Goes to the next thing of a kind; whether there is one."""
    state = desk.state
    if sought.kind == "name":
        path: Optional[str] = walk.next_named(desk.replies, state.path, sought.text, desk.most_walked, desk.given_up.get("n"))
        if path is None:
            return False
        desk.go(path)
        desk.state = replace(desk.state, sought=sought).told(f"a name; n goes on; \"{sought.text}\" in quotes is sought in the bytes")
        return True
    place = state.place + 1 if state.found[0] == state.place and state.found[0] < state.found[1] else state.place
    span = walk.next_bytes(desk.replies, sought.wanted, place) if sought.wanted else None
    if span is None:
        return False
    moved = moves.at_place(replace(state, is_node=False, sought=sought), desk.replies, span[0])
    also = f"; {moved.message}" if moved.message else ""
    desk.state = replace(moved, found=span).told(f"{sought.kind} at {span[0]} (0x{span[0]:x}); n goes on{also}")
    return True
