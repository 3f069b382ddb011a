"""Keys that are broken off: ctrl-C at each place where an answer is awaited, and another size after each key. An edit is then made as a whole or not at all,
the screen is drawn, and ctrl-L asks for what is missing."""
import tempfile
from typing import Iterator, List, Tuple

from front.signals import Interrupted, Signals
from front.view.desk import Desk
from viewed import desks, fresh

# Examples, keys that go before, and the key that is broken off.
KEYS: List[Tuple[str, str, str]] = [
    ("ico", "", "ctrl-l"), ("ico", "down*4", "right"), ("ico", "f", "enter"), ("ico", "f e 2 2", "enter"), ("ico", "f e 2 2 enter", "u"),
    ("ico", "f e 2 2 enter u", "ctrl-r"),
    ("ico", "", "f"), ("ico", "tab right*5 1", "6"), ("ico", "tab", "delete"), ("ico", "tab i 0 a", "enter"), ("ico", "", "r"),
    ("ico", "f e 2 2 enter s", "enter"),
    ("fat16", "tab", "pgdn"), ("fat16", "/ :Undelete", "enter"), ("fat16", "f", "enter"),
]
# The places of a key that are tried: the first ones, and then each further by a part of what is before it.
PART = 3
SIZES = [(10, 40), (24, 80), (1, 1), (50, 200), (11, 41), (30, 132), (4, 20), (24, 80)]
STEPS = [("ico", "f e 2 2 enter down down right tab right 0 a u"), ("fat16", "f enter g :0x4240 enter tab down end ?"), 
         ("bson", "/ :len_ enter n e :156 enter x b")]


class Breaking(Signals):
    """Signals of which ctrl-C comes when they are looked at for the n-th time."""

    def __init__(self) -> None:
        super().__init__()
        self.rest = 0

    def look(self) -> None:
        """Raises what was asked for, and the break when its time has come."""
        super().look()
        if self.rest:
            self.rest -= 1
            if not self.rest:
                raise Interrupted


def places() -> Iterator[int]:
    """The places of a key that are tried."""
    at = 1
    while True:
        yield at
        at += 1 + at // PART


def broken(name: str, before: str, key: str) -> str:
    """What is wrong where a key is broken off at one of its places."""
    for at in places():
        with tempfile.TemporaryDirectory(prefix="ksv-view-break-") as room, desks.inside(room):
            fresh.apart(room)
            file, ksy = desks.example(name)
            with open(file, "rb") as origin, open(f"{room}/file", "wb") as copy:
                copy.write(origin.read())
            signals = Breaking()
            with desks.opened(f"{room}/file", ksy, signals=signals) as desk:
                desks.play(desk, before)
                is_met, why = broken_at(desk, signals, key, at, ksy)
        if why:
            return f"{name}, {before} {key}, broken off at its place {at}: {why}"
        if not is_met:
            return "" if at > 1 else f"{name}, {before} {key}: it asks nothing"
    return ""


def content_of(desk: Desk) -> bytes:
    """The bytes as they must be."""
    keeper = desk.opened.keeper
    return fresh.edited(keeper.origin, keeper.edits.lines())


def broken_at(desk: Desk, signals: Breaking, key: str, at: int, ksy: str) -> Tuple[bool, str]:
    """Whether a key, or the screen after it, has a place at which it is broken off; and what is wrong then."""
    before = content_of(desk)
    if key == "ctrl-l":
        desk.replies.known.clear()
    signals.rest = at
    desk.key(key)
    screen = desk.screen()
    is_met, signals.rest = signals.rest == 0, 0
    if is_met and "broken off" not in desk.state.message:
        return True, f"nothing is told of it: {desk.state.message!r}"
    if len(screen.rows) != desk.state.rows:
        return is_met, f"{len(screen.rows)} rows"
    after = content_of(desk)
    desk.key("ctrl-l")
    why = fresh.wrong(desk, desk.screen(), ksy)
    own = desk.opened.keeper.session.content(0, desk.opened.keeper.session.size())
    if not why and own != after:
        why = "the session has other bytes than its edits say"
    if not why and after != before:
        desk.keys("u" if key != "u" else ["ctrl-r"])
        why = fresh.wrong(desk, desk.screen(), ksy) or ("" if content_of(desk) == before else "the edit that was broken off is made by half")
    return is_met, why


def resized(name: str, script: str) -> str:
    """What is wrong with a screen of another size after any of some keys."""
    file, ksy = desks.example(name)
    with desks.opened(file, ksy) as desk:
        for count, word in enumerate(script.split()):
            desks.press(desk, word)
            for rows, columns in SIZES:
                desk.resize(rows, columns)
                why = fresh.wrong(desk, desk.screen(), ksy)
                if why:
                    return f"{name}, {' '.join(script.split()[: count + 1])}, {columns}x{rows}: {why}"
    return ""
