"""A session of the view without a terminal: keys in, rows of cells out. Where keys lead is in `moves`; what they change is in `editing` and `filing`."""
import os
from dataclasses import replace
from typing import Callable, Dict, Iterable, List, Optional

from front.edits import edits_of
from front.follow import Follower
from front.journal import NoJournal
from front.look import Explorer, Spent
from front.opening import Opened, greetings
from front.save import NotSaved
from front.session import Died, Refused
from front.signals import Interrupted
from front.values import Unwritable
from front.view import editing, filing, moves, seeking, walk
from front.view.about import sources_of
from front.view.draw import Screen, Told, drawn
from front.view.help import by_keys, lines_of
from front.view.replies import Replies
from front.view.state import State, Typed, fronts
from front.view.tree import Tree
from front.words import Misread

# The most questions for one key that explains, follows or edits.
ASKED = 1000
# How many nodes are kept to come back to.
MOST_BACK = 100
HEX = "0123456789abcdef"
# Keys that end what there is, and are no mistake where there is nothing.
QUIET = ("escape", "interrupt", "backspace")
# Keys that begin a line that is typed. While one is typed, what was given up isn't asked again.
TYPING = ("g", "/", "s", "i")
# Keys that go on with a walk that was given up.
WALKING = ("f", "F", "n")
FAILURES = (Died, Misread, NoJournal, NotSaved, OSError, Refused, Unwritable)


class Desk:
    """An opened file, what is known of it, and what the screen shows."""

    def __init__(
        self, opened: Opened, notes: List[str], rows: int, columns: int, looked: Callable[[], None] = lambda: None, most_walked: int = walk.MOST_ASKED
    ) -> None:
        self.opened, self.notes, self.most_walked = opened, notes, most_walked
        self.replies = Replies(lambda: self.opened.keeper.session, opened.signals, looked)
        self.state = State(rows=rows, columns=columns)
        self.is_warned, self.status = False, 0
        # the walk that was given up last, by the key that goes on with it
        self.given_up: Dict[str, walk.GivenUp] = {}
        # the number of the state that is at OUT
        self.at_out: Optional[int] = 0 if opened.out is not None and opened.saver.is_same(opened.out, opened.file) else None
        left = greetings(opened.keeper, "R takes them up, D removes them")
        self.state = self.state.told("; ".join(left))

    # Screens

    def screen(self) -> Screen:
        """The rows of the screen as it is. What is broken off meanwhile is shown so, and nothing more is asked for it."""
        try:
            found = drawn(self.state, self.replies, self.told())
        except Interrupted:
            self.give_up()
        except FAILURES as error:
            self.give_up(str(error))
        else:
            if not self.notes:
                return found
        self.noted()
        return drawn(self.state, self.replies, self.told())

    def told(self) -> Told:
        """What the screen tells of the session."""
        keeper = self.opened.keeper
        count = len(keeper.edits.holding())
        saved = "" if keeper.edits.version == 0 == keeper.edits.saved else "saved" if keeper.edits.is_saved() else f"{edits_of(count)}, not saved"
        return Told(base(self.opened.file), base(self.opened.ksy), saved, self.opened.description)

    def noted(self) -> None:
        """Puts what was told meanwhile beside the message."""
        self.state = self.state.told("; ".join(it for it in (self.state.message, *self.notes) if it))
        self.notes.clear()

    def give_up(self, message: str = "broken off") -> None:
        """Asks nothing more until the next key."""
        self.replies.is_given_up = True
        self.notes.append(message)
        self.noted()

    # Keys

    def keys(self, keys: Iterable[str]) -> None:
        """Does what keys ask for, one after the other."""
        for it in keys:
            self.key(it)

    def key(self, key: str) -> None:
        """Does what a key asks for. What goes wrong is told."""
        before = self.state
        self.replies.is_given_up = self.replies.is_given_up and (key != "enter" if before.typed else key in TYPING)
        self.state = replace(before, message="")
        if key not in WALKING:
            self.given_up = {}
        try:
            self.done(key)
            self.state, self.given_up = moves.settled(self.state, self.replies, before), {}
        except Interrupted:
            self.give_up()
        except walk.GivenUp as error:
            again = key if key in WALKING else "n"
            self.given_up = {again.lower(): error}
            self.state = replace(before, typed=None, sought=self.state.sought).told(f"nothing up to {error.path}, in {self.most_walked} answers: {again} goes on")
        except Spent:
            self.state = self.state.told("given up: too many questions")
        except FAILURES as error:
            self.state = self.state.told(by_keys(str(error)))
        self.is_warned = self.is_warned and key in ("q", "ctrl-d")

    def resize(self, rows: int, columns: int) -> None:
        """Goes on with a screen of another size."""
        self.state = replace(self.state, rows=max(1, rows), columns=max(1, columns))
        try:
            self.state = moves.settled(self.state, self.replies)
        except (Interrupted, *FAILURES):
            self.give_up()

    def done(self, key: str) -> None:
        """Does what a key asks for."""
        state = self.state
        if state.typed:
            self.typed(key)
        elif state.help_from is not None:
            self.state = replace(state, help_from=self.help_page(key, state.help_from))
        elif state.half == "bytes" and key in HEX and len(key) == 1:
            editing.digit(self, key)
        elif key in COMMANDS:
            COMMANDS[key](self)
        else:
            move = moves.tree_move if state.half == "tree" else moves.bytes_move
            moved = move(state, self.replies, key)
            self.state = moved or state.told("" if key in QUIET else f"{key} does nothing here; ? lists the keys")

    def help_page(self, key: str, first: int) -> Optional[int]:
        """Which line of the help is the first after a key; None where it ends."""
        room = max(1, self.state.rows - 2)
        steps = {"down": 1, "up": -1, "pgdn": room, "pgup": -room}
        return max(0, min(len(lines_of(self.state.columns)) - room, first + steps[key])) if key in steps else None

    def tab(self) -> None:
        """Goes to the other half."""
        state = self.state
        if state.half == "bytes":
            self.state = moves.chosen(replace(state, half="tree", open=state.open | fronts(state.path)), self.replies, state.path)
        else:
            self.state = replace(state, half="bytes", open=state.open | fronts(state.path))

    def enter(self) -> None:
        """Opens or closes a node, goes to the object that is meant, or edits a value."""
        state, tree = self.state, Tree.of(self.state, self.replies)
        self.replies.again()
        if state.half == "bytes":
            self.tab()
        elif tree.has_below(state.path):
            changed = state.open - {state.path} if state.path in state.open else state.open | {state.path}
            self.state = replace(state, open=changed)
        else:
            self.follow()

    def follow(self) -> None:
        """Goes to the object that a calculated value is, or to the last of what it is made of; else edits the value."""
        path = self.state.path
        if self.replies.ask(f"at {path}") != "calculated":
            editing.ask_value(self)
            return
        target = Follower(self.explorer(), self.opened.description()).target(path)
        made = [target] if target else list(sources_of(self.replies, self.opened.description(), path))
        if made:
            self.go(made[-1])
            last = f"the last of {len(made)} that it is made of" if len(made) > 1 else "what it is made of"
            self.state = self.state.told(f"{'the object that it is' if target else last}; b goes back")
        else:
            self.state = self.state.told("calculated: it has no bytes")

    def explorer(self) -> Explorer:
        """Questions for one key."""
        return Explorer(self.replies, ASKED)

    def go(self, path: str) -> None:
        """Chooses a node, and shows it in the tree. The one from which it goes is kept, to come back."""
        state = self.state
        back = (*state.back, state.path)[-MOST_BACK:] if path != state.path else state.back
        self.state = moves.chosen(replace(state, open=state.open | fronts(path), back=back), self.replies, path)

    def go_back(self) -> None:
        """Goes where it was before it went elsewhere."""
        state = self.state
        if state.back:
            path = Tree.of(state, self.replies).nearest(state.back[-1])
            self.state = moves.chosen(replace(state, open=state.open | fronts(path), back=state.back[:-1]), self.replies, path)
        else:
            self.state = state.told("nowhere to go back to")

    def show_help(self) -> None:
        """The page of help."""
        self.state = replace(self.state, help_from=0)

    def toggle_hex(self) -> None:
        """Integers in hexadecimal digits, or not."""
        self.state = replace(self.state, is_hex=not self.state.is_hex)

    def again(self) -> None:
        """Asks again what was broken off."""
        self.replies.again()

    # What is typed

    def ask_line(self, purpose: str, text: str = "") -> None:
        """Begins a line."""
        self.state = replace(self.state, typed=Typed(purpose, text, len(text), bool(text)))

    def typed(self, key: str) -> None:
        """One more key of a line."""
        line = self.state.typed
        if key in ("escape", "interrupt"):
            self.state = replace(self.state, typed=None)
        elif key == "enter":
            self.state = replace(self.state, typed=None)
            PURPOSES[line.purpose.split()[0]](self, line.text)
        else:
            self.state = replace(self.state, typed=line.after(key))


def base(name: str) -> str:
    """The last part of a file's name."""
    return os.path.basename(name) or name


COMMANDS: Dict[str, Callable[[Desk], None]] = {
    "tab": Desk.tab, "enter": Desk.enter, "?": Desk.show_help, "b": Desk.go_back, "x": Desk.toggle_hex, "ctrl-l": Desk.again,
    "e": editing.ask_value, "E": editing.ask_value, "i": editing.ask_bytes, "insert": editing.ask_bytes, "delete": editing.delete, "u": editing.undo,
    "ctrl-r": editing.redo, "f": seeking.fault, "F": seeking.fault, "/": seeking.ask_text, "n": seeking.again, "g": seeking.ask_where,
    "s": filing.ask_name, "r": filing.reload, "R": filing.recover, "D": filing.drop, "q": filing.leave, "ctrl-d": filing.leave,
}
PURPOSES: Dict[str, Callable[[Desk, str], None]] = {
    "value": editing.write, "insert": editing.insert, "search": seeking.search, "go": seeking.go_to, "save": filing.save,
}
