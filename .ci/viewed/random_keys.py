"""Random keys over examples: after each edit, undo, redo and change of the size all that the screen shows must be what a new session has."""
import hashlib
import random
import tempfile
from typing import Iterator, List, Optional

from front.view.desk import Desk
from viewed import desks, fresh

EXAMPLES = ["ico", "fat16", "bson", "tcp", "png", "zip", "gif", "sqlite", "class", "tar"]
# How many keys a session has, of how many examples those are that the gate tries, the most questions of a walk, and how often other keys are looked over.
KEYS, SOME, WALKED, OFTEN = 2000, 3, 300, 0.02
SIZES = [(24, 80), (24, 80), (10, 40), (14, 60), (16, 72), (30, 132), (50, 200), (11, 41), (12, 100), (4, 20), (1, 1)]
MOVES = ["up", "down", "down", "left", "right", "right", "pgup", "pgdn", "home", "end", "tab", "tab", "enter", "n", "f", "F", "b", "x", "?", "escape",
         "backspace", "r",
         "ctrl-l", "interrupt", "R", "D", "insert", "y", "0", "9", "ctrl-u"]
VALUES = ["0", "1", "7", "255", "65536", "-1", "0x1f", '"ab"', "0aff", "true", "icon", "12 34", "zz", '"', "99999999999999999999999"]
SOUGHT = ["le", "name", "0x00", '"A"', "ff", "README", "?", "x y", '"']


def keys_of(source: random.Random) -> Iterator[str]:
    """Random keys without an end."""
    while True:
        kind = source.random()
        if kind < 0.70:
            yield source.choice(MOVES[:14] if kind < 0.55 else MOVES)
        elif kind < 0.80:
            yield from source.choice([["u"], ["u", "u"], ["ctrl-r"]])
        elif kind < 0.85:
            yield from [source.choice("eE"), *["ctrl-u"] * source.randrange(2), *source.choice(VALUES), "enter"]
        elif kind < 0.88:
            yield from ["i", *source.choice(VALUES), "enter"]
        elif kind < 0.90:
            yield "delete"
        elif kind < 0.94:
            yield from source.choice(["3a", "00", "f", "c4", "ffff"])
        elif kind < 0.97:
            yield from [source.choice("/g"), *source.choice([*SOUGHT, "/", "12", "0x40", "/a/0", ".."]), "enter"]
        else:
            yield source.choice(["resize", "resize", "s"])
            yield source.choice(["down", "escape"])


def some(word: str) -> List[str]:
    """Those examples that the gate tries, chosen by a word."""
    return sorted(EXAMPLES, key=lambda it: hashlib.sha256(f"{word} {it}".encode()).hexdigest())[:SOME]


def session(name: str, seed: str = "69") -> str:
    """What goes wrong in a session of random keys over an example. Whatever it saves is in a folder of its own."""
    file, ksy = desks.example(name)
    with tempfile.TemporaryDirectory(prefix="ksv-view-keys-") as room, desks.inside(room):
        fresh.apart(room)
        with open(file, "rb") as origin, open(f"{room}/file", "wb") as copy:
            copy.write(origin.read())
        with desks.opened(f"{room}/file", ksy) as desk:
            walk = Walk(desk, random.Random(f"{name} {seed}"), ksy)
            why = walk.through(KEYS) or walk.taken_back()
    return why and f"{name}: {why}"


class Walk:
    """Random keys over a desk, and the bytes before the last change."""

    def __init__(self, desk: Desk, source: random.Random, ksy: str) -> None:
        self.desk, self.source, self.ksy, self.pressed = desk, source, ksy, []  # type: Desk, random.Random, str, List[str]
        self.before: Optional[bytes] = None
        self.looked = 0
        desk.most_walked = WALKED

    def content(self) -> bytes:
        """The bytes as they must be."""
        keeper = self.desk.opened.keeper
        return fresh.edited(keeper.origin, keeper.edits.lines())

    def through(self, count: int) -> str:
        """What goes wrong with so many keys."""
        keys = keys_of(self.source)
        while len(self.pressed) < count:
            key, content, known = next(keys), self.content(), self.desk.replies.before
            self.press(key)
            is_anew = self.desk.replies.before is not known
            self.before = content if is_anew else self.before
            why = self.look() if is_anew or key == "resize" or self.source.random() < OFTEN else ""
            if why:
                return f"after {len(self.pressed)} keys (.. {' '.join(self.pressed[-12:])}): {why}"
        return "" if self.looked > count // 20 else f"only {self.looked} screens were looked over"

    def press(self, key: str) -> None:
        """Presses one key; not each screen is drawn."""
        self.pressed.append(key)
        try:
            if key == "resize":
                self.desk.resize(*self.source.choice(SIZES))
            else:
                self.desk.key(key)
            if self.source.random() < 0.5:
                self.desk.screen()
        except Exception as error:
            raise AssertionError(f"{' '.join(self.pressed[-30:])}: {error!r}") from error

    def look(self) -> str:
        """What is wrong with the screen."""
        self.looked += 1
        seen = [it[4:] for it, told in self.desk.replies.before.items() if it.startswith("get /") and not told.startswith("(")]
        return fresh.wrong(self.desk, self.desk.screen(), self.ksy, self.before, seen)

    def taken_back(self) -> str:
        """What is wrong once all is saved, and all edits are taken back."""
        desk, keeper = self.desk, self.desk.opened.keeper
        desk.keys(["escape", "escape"])
        wanted = self.content()
        desk.keys(["s", "enter", "s", "enter"])
        with open(desk.opened.file, "rb") as file:
            if file.read() != wanted:
                return f"what is saved isn't the edited file: {desk.state.message}"
        count = len(keeper.edits.holding())
        desk.keys(["u"] * count)
        own = keeper.session.content(0, keeper.session.size())
        return "" if own == keeper.origin and keeper.edits.greatest else f"after {count} times u the bytes aren't those of the beginning"
