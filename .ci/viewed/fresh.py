"""What a new session of ksv has of the bytes as they are, and whether a screen shows that. It knows the screen's state, and asks the program itself: none of
what made the rows is used here, but how many rows and columns each part of a screen has."""
import os
import re
import struct
import subprocess
import tempfile
from typing import Dict, FrozenSet, Iterable, Iterator, List, Optional, Set, Tuple

from front.opening import PROGRAM
from front.texts import columns
from front.view.cells import Row, Span, plain
from front.view.desk import Desk
from front.view.draw import Layout, Screen

PLACE = re.compile(r"at (\d+)((?:\.\d)?) (\d+)((?:\.\d)?)")
# How many lines are on their way at once, and how many elements of a list are looked at together.
TOGETHER = 128
# The words of a style that a byte or a row may have, and what is shown of bytes as numbers: a form and an order of `struct` for each word.
READINGS = {"u1": "B", "s1": "b", "u2": "H", "s2": "h", "u4": "I", "s4": "i", "u8": "Q", "s8": "q", "f4": "f", "f8": "d"}


def edited(origin: bytes, lines: Iterable[str]) -> bytes:
    """A file's bytes after lines of edits."""
    data = bytearray(origin)
    for it in lines:
        word, *rest = it.split()
        if word == "app":
            data += bytes.fromhex(rest[0])
        elif word == "del":
            del data[int(rest[0]) : int(rest[0]) + int(rest[1])]
        else:
            at, some = int(rest[0]), bytes.fromhex(rest[1])
            data[at : at + (len(some) if word == "set" else 0)] = some
    return bytes(data)


class Fresh:
    """A new session over some bytes: lines in, replies out, each asked for once."""

    def __init__(self, content: bytes, ksy: str) -> None:
        self.known: Dict[str, str] = {}
        with tempfile.NamedTemporaryFile() as file:
            file.write(content)
            file.flush()
            words = [PROGRAM, "--", file.name, ksy]
            self.running = subprocess.Popen(words, stdin=subprocess.PIPE, stdout=subprocess.PIPE, stderr=subprocess.DEVNULL, text=True, errors="replace")
            self.ask("size")

    def __enter__(self) -> "Fresh":
        return self

    def __exit__(self, *_: object) -> None:
        self.running.kill()
        self.running.wait()
        for pipe in (self.running.stdin, self.running.stdout):
            pipe.close()

    def ask_all(self, lines: Iterable[str]) -> None:
        """Asks for what isn't known yet."""
        wanted = [it for it in dict.fromkeys(lines) if it not in self.known]
        for at in range(0, len(wanted), TOGETHER):
            some = wanted[at : at + TOGETHER]
            self.running.stdin.write("".join(f"{it}\n" for it in some))
            self.running.stdin.flush()
            self.known.update((it, self.running.stdout.readline().rstrip("\n")) for it in some)

    def ask(self, line: str) -> str:
        """The reply to a line."""
        self.ask_all([line])
        return self.known[line]

    def below(self, path: str) -> List[str]:
        """The paths of what is in an object or a list; of one that has a fault for its end the elements that are found, the first ones on."""
        told, front = self.ask(f"ls {path}"), "" if path == "/" else path
        if told.startswith("members"):
            return [f"{front}/{it}" for it in told.split()[1:]]
        if re.fullmatch(r"\[\d+\]", told):
            return [f"{front}/{it}" for it in range(int(told[1:-1]))]
        return list(self.found(front)) if told.startswith("fault") else []

    def found(self, front: str) -> Iterator[str]:
        """The elements of a list up to the first one that isn't found."""
        at = 0
        while True:
            some = [f"{front}/{it}" for it in range(at, at + 8)]
            self.ask_all(f"ls {it}" for it in some)
            for it in some:
                if self.ask(f"ls {it}").startswith(("fault", "error")):
                    return
                yield it
            at += 8

    def rows(self, opened: FrozenSet[str], path: str = "/") -> Iterator[str]:
        """All rows of a tree in which these paths are open."""
        yield path
        if path in opened:
            for it in self.below(path):
                yield from self.rows(opened, it)

    def span(self, path: str) -> Optional[range]:
        """The bytes of a path, also those that it has some bits of; None where it has no place."""
        found = PLACE.fullmatch(self.ask(f"at {path}"))
        return range(int(found[1]), int(found[3]) + bool(found[4])) if found else None


def cells_of(row: Row) -> List[Tuple[str, Set[str]]]:
    """The letters of a row, each with the words of its style."""
    return [(letter, set(it.style.split())) for it in row for letter in it.text]


def parted(row: Row, width: int) -> Tuple[str, Row]:
    """The letters of the first columns of a row, and the rest of it."""
    left, rest = "", []
    for it in row:
        for letter in it.text:
            if columns(left) < width:
                left += letter
            else:
                rest.append(Span(letter, it.style))
    return left, tuple(rest)


def place_of(told: str) -> str:
    """A place as a row has it."""
    found = PLACE.fullmatch(told)
    return f"{int(found[1]):x}{found[2]}-{int(found[3]):x}{found[4]}" if found else "calc" if told == "calculated" else ""


def value_of(told: str, path: str, is_hex: bool) -> str:
    """A value as a row has it."""
    if told == f"fault absent at {path}":
        return "absent"
    fault = re.fullmatch(r"(fault \S+) at (\S+)", told)
    if fault and fault[2] == path:
        return fault[1]
    if is_hex and re.fullmatch(r"-?\d+", told):
        return hex(int(told))
    member = re.fullmatch(r"(\S+::\S+ \()(-?\d+)\)", told)
    return f"{member[1]}{hex(int(member[2]))})" if is_hex and member else told


class Look:
    """One look at a screen, beside a new session over the bytes as they are, and one over those before the last change, if that is known."""

    def __init__(self, desk: Desk, screen: Screen, ksy: str, fresh: Fresh, before: Optional[Fresh], seen: Iterable[str]) -> None:
        self.state, self.screen, self.ksy, self.fresh, self.before, self.seen = desk.state, screen, ksy, fresh, before, frozenset(seen)
        keeper = desk.opened.keeper
        self.content = edited(keeper.origin, keeper.edits.lines())
        self.layout = Layout.of(self.state, len(self.content))
        self.opened = self.state.open | {it for it in above(self.state.path)}

    def wrong(self) -> Iterator[str]:
        """What is wrong with the screen; nothing where all that it shows is what the new session has."""
        state, layout = self.state, self.layout
        bad = [plain(it) for it in self.screen.rows if columns(plain(it)) != state.columns]
        if bad or len(self.screen.rows) != state.rows:
            yield f"{len(self.screen.rows)} rows, of which {bad} aren't {state.columns} wide"
            return
        if state.help_from is not None:
            return
        if self.fresh.ask("size") != f"size {len(self.content)}":
            yield f"a new session: {self.fresh.ask('size')}, and not {len(self.content)}"
            return
        halves = [parted(it, layout.tree) for it in self.screen.rows[: layout.body + 1]]
        if layout.tree:
            yield from self.wrong_tree([it for it, _ in halves])
        if layout.grid and layout.grid.width <= state.columns - layout.tree:
            yield from self.wrong_bytes([it[1:] if layout.tree else it for _, it in halves[1:]])
        if layout.about and state.rows > 6:
            yield from self.wrong_about([plain(it) for it in self.screen.rows[layout.body + 1 :] if not is_message(it)])

    def wrong_tree(self, rows: List[str]) -> Iterator[str]:
        """What is wrong with the tree's half: other rows than those of the whole tree around the chosen one, or a row that has another value."""
        state, rows = self.state, [rows[0].rstrip(), *rows[1:]]
        if not rows[0].endswith(f"{len(self.content)} bytes") and not rows[0].endswith("~"):
            yield f"the file has {len(self.content)} bytes: {rows[0]!r}"
        every = list(self.fresh.rows(self.opened))
        if state.path not in every:
            yield f"{state.path} isn't in the tree"
            return
        first = every.index(state.path) - state.line
        shown = every[max(0, first) : first + len(rows) - 1]
        if first < 0 or len(shown) < min(len(rows) - 1, len(every)):
            yield f"{len(shown)} rows from {first} on, where there are {len(every)}, and room for {len(rows) - 1}"
        self.fresh.ask_all(f"{word} {it}" for it in shown for word in ("get", "at", "ls"))
        for path, text in zip(shown, rows[1:]):
            yield self.wrong_row(text, path)
        yield from (f"a row too many: {it!r}" for it in rows[1 + len(shown) :] if it.strip())

    def wrong_row(self, text: str, path: str) -> str:
        """What is wrong with the row of a path; nothing where it has the path's marks, name, value and place."""
        get, at = self.fresh.ask(f"get {path}"), self.fresh.ask(f"at {path}")
        place = place_of(at) if len(text) - len(place_of(at)) > 12 else ""
        if place and not text.endswith(f" {place}"):
            return f"{path}: {text!r} hasn't the place {place}"
        rest = text[: len(text) - len(place) - 1] if place else text
        if (path == self.state.path and self.state.is_node) != text.startswith(">"):
            return f"{path}: {text!r} is marked wrongly"
        if self.before and (rest[1:2] == "*") != self.is_other(path) and (rest[1:2] == "*" or path in self.seen):
            return f"{path}: {text!r} was {self.before.ask(f'get {path}')!r}"
        depth = path.count("/") if path != "/" else 0
        indent = min(2 * depth, self.layout.tree // 3)
        wanted = f"{' ' * indent}{self.mark(path, get, at)} {path.rpartition('/')[2] or '/'}  {value_of(get, path, self.state.is_hex)}"
        own = rest[2:].rstrip(" ")
        is_right = own == wanted.rstrip(" ") or own.endswith("~") and wanted.startswith(own[:-1])
        return "" if is_right else f"{path}: {rest!r} isn't {wanted!r}"

    def is_other(self, path: str) -> bool:
        """Whether the value at a path is another one than before the last change."""
        return self.fresh.ask(f"get {path}") != self.before.ask(f"get {path}")

    def mark(self, path: str, get: str, at: str) -> str:
        """Whether a path can be opened, is open, or is an object that is elsewhere."""
        if at == "calculated":
            return "=" if get.startswith("object ") else " "
        if not get.startswith(("object ", "[", "fault ")) or not self.fresh.below(path):
            return " "
        return "-" if path in self.opened else "+"

    def wrong_bytes(self, rows: List[Row]) -> Iterator[str]:
        """What is wrong with the rows of bytes: other bytes, a mark on others than those of the chosen node, a cursor that isn't there; or a node that isn't
        the innermost one that has the byte under the cursor."""
        state, grid, content = self.state, self.layout.grid, self.content
        span = (self.fresh.span(state.path) if state.is_node else None) or range(0)
        if state.half == "bytes":
            yield self.wrong_node(span)
        is_seen = False
        for row in rows:
            cells = cells_of(row)
            text = "".join(it for it, _ in cells)
            if not text.strip():
                continue
            start = int(text[: grid.digits], 16)
            for place in range(start, start + grid.row):
                column = grid.digits + 1 + 3 * (place - start)
                digits, style = text[column : column + 2], cells[column][1]
                wanted = f"{content[place]:02x}" if place < len(content) else "  "
                if digits != wanted and not (place == state.place and state.digit):
                    yield f"the byte {place} is {digits!r}, and not {wanted!r}"
                if ("marked" in style) != (place in span and place < len(content)):
                    yield f"the byte {place} is marked wrongly: {state.path} is {self.fresh.ask(f'at {state.path}')}"
                if ("cursor" in style) != (place == state.place and state.half == "bytes"):
                    yield f"the cursor is at {state.place}, and not at {place}"
                is_seen = is_seen or place == state.place
        yield "" if is_seen else f"the byte under the cursor, {state.place}, isn't there"

    def wrong_node(self, span: range) -> str:
        """What is wrong with the node of the byte under the cursor: it hasn't the byte, or something in it that is no larger has it. On the first byte of a
        node that node may have been chosen in the tree."""
        path, place = self.state.path, self.state.place
        if not self.state.is_node:
            root = self.fresh.span("/")
            return f"/ has the byte {place}" if root and place in root and place < len(self.content) else ""
        if len(span) and place not in span:
            return f"the byte {place} isn't of {path}, {self.fresh.ask(f'at {path}')}"
        if not span or place == span.start:
            return ""
        below = self.fresh.below(path)
        self.fresh.ask_all(f"at {it}" for it in below)
        inner = next((it for it in below if (own := self.fresh.span(it)) and place in own and len(own) <= len(span)), None)
        return f"the byte {place} is of {inner}, and not only of {path}" if inner else ""

    def wrong_about(self, rows: List[str]) -> Iterator[str]:
        """What is wrong with what is said of the chosen node, and of the bytes at the cursor, as far as no message is over it."""
        state, first = self.state, rows[0].rstrip() if rows else ""
        if state.is_node and rows:
            get, at = self.fresh.ask(f"get {state.path}").rstrip(), self.fresh.ask(f"at {state.path}")
            if not first.endswith("~") and (at not in first or not first.endswith((f"  {value_of(get, state.path, False)}", f"  {get}", at)) and get != at):
                yield f"{state.path}: {first!r} hasn't {at!r} and {get!r}"
        some, order = self.content[state.place : state.place + 24], "<"
        for it in rows[self.layout.about : self.layout.about + self.layout.readings]:
            words = re.sub(r"  text .*", "", it.rstrip(" ")).split()
            order = {"le": "<", "be": ">"}.get(words[0] if words else "", order)
            for form, number in zip(words, words[1:]):
                if form in READINGS and not it.startswith("no byte") and not number.endswith("~"):
                    yield wrong_number(form, number, order, some, state.place)


def is_message(row: Row) -> bool:
    """Whether a row tells what a key did."""
    return any("message" in style for _, style in cells_of(row))


def wrong_number(form: str, number: str, order: str, some: bytes, place: int) -> str:
    """What is wrong with a number that bytes are shown as."""
    count = int(form[1])
    [found] = struct.unpack(order + READINGS[form], some[:count]) if len(some) >= count else [None]
    wanted = f"{found:.7g}" if form == "f4" and found is not None else repr(found)
    return "" if number == wanted else f"the bytes from {place} on as {form} are {number}, and not {wanted}"


def above(path: str) -> Iterator[str]:
    """All paths above one."""
    while path != "/":
        path = path.rpartition("/")[0] or "/"
        yield path


def wrong(desk: Desk, screen: Screen, ksy: str, before: Optional[bytes] = None, seen: Iterable[str] = ()) -> str:
    """What is wrong with a screen; nothing where all that it shows is what a new session has of the bytes as they are. Where the bytes before the last change
    are known, the marks of what changed are looked at too; of rows that were seen before it."""
    keeper = desk.opened.keeper
    with Fresh(edited(keeper.origin, keeper.edits.lines()), ksy) as fresh:
        if before is None:
            return next(filter(None, Look(desk, screen, ksy, fresh, None, ()).wrong()), "")
        with Fresh(before, ksy) as old:
            return next(filter(None, Look(desk, screen, ksy, fresh, old, seen).wrong()), "")


def replies(content: bytes, ksy: str, lines: List[str]) -> Dict[str, str]:
    """The replies of a new session to lines."""
    with Fresh(content, ksy) as fresh:
        fresh.ask_all(lines)
        return fresh.known


def apart(room: str) -> None:
    """Makes sure that no other session left anything."""
    os.environ["XDG_STATE_HOME"] = tempfile.mkdtemp(prefix="state-", dir=room)
