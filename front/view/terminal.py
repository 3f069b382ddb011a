"""The view on a terminal, by curses: keys from it, rows of cells to it. Nothing is decided here."""
import curses
import fcntl
import locale
import os
import re
import select
import signal
import sys
import termios
import time
from typing import Dict, List, Optional, Tuple, Union

from front.signals import Ending, Interrupted, Signals
from front.texts import columns
from front.view.cells import Row, Span, fitted
from front.view.desk import Desk
from front.view.draw import Screen

# How often somebody looks whether a question takes long, after how many seconds a sign of it is given, and after how many it is given anew; after how many
# readings of no byte at all the terminal is taken to be gone.
PATIENCE, LONG, OFTEN, EMPTY = 0.02, 0.07, 0.1, 5
NAMES: Dict[int, str] = {
    curses.KEY_UP: "up", curses.KEY_DOWN: "down", curses.KEY_LEFT: "left", curses.KEY_RIGHT: "right", curses.KEY_PPAGE: "pgup", curses.KEY_NPAGE: "pgdn",
    curses.KEY_HOME: "home", curses.KEY_END: "end", curses.KEY_DC: "delete", curses.KEY_IC: "insert", curses.KEY_BACKSPACE: "backspace",
    curses.KEY_ENTER: "enter", curses.KEY_BTAB: "tab", curses.KEY_RESIZE: "resize",
}
LETTERS: Dict[str, str] = {
    "\t": "tab", "\n": "enter", "\r": "enter", "\x1b": "escape", "\x7f": "backspace", "\b": "backspace", "\x12": "ctrl-r", "\x0c": "ctrl-l", "\x15": "ctrl-u",
    "\x04": "ctrl-d", "\x03": "interrupt",
}
# What a terminal sends for a key that its description hasn't, as ctrl-Right on many: some of it would be digits over bytes.
ESCAPE = re.compile(r"\x1b(?:\[[0-?]*[ -/]*[@-~]|O[0-9;]*[@-~])")
# After these signals the terminal may have another size: while the view was stopped, none told of it.
RESIZED = (signal.SIGWINCH, signal.SIGCONT)
# What each word of a style is, without colours and with them.
ATTRIBUTES = {
    "chosen": curses.A_REVERSE, "mate": curses.A_BOLD, "cursor": curses.A_REVERSE | curses.A_BOLD, "marked": curses.A_BOLD, "found": curses.A_REVERSE,
    "bar": curses.A_REVERSE, "key": curses.A_BOLD, "fault": curses.A_BOLD, "changed": curses.A_UNDERLINE, "written": curses.A_UNDERLINE,
    "message": curses.A_BOLD, "offered": curses.A_REVERSE, "dim": curses.A_DIM,
}
COLOURS = {"fault": curses.COLOR_RED, "changed": curses.COLOR_GREEN, "written": curses.COLOR_GREEN, "marked": curses.COLOR_CYAN, "found": curses.COLOR_YELLOW,
           "note": curses.COLOR_YELLOW, "name": -1}


def named(keys: List[Union[int, str]]) -> List[str]:
    """The names of keys, as curses gives them: numbers, and letters. Those that have none are left out."""
    letters = ESCAPE.sub(lambda found: "\0" * len(found[0]), "".join(it if isinstance(it, str) else "\0" for it in keys))
    names = [NAMES.get(it, "") if isinstance(it, int) else LETTERS.get(letter, letter if letter.isprintable() else "") for it, letter in zip(keys, letters)]
    return [it for it in names if it]


def spelt(text: str, letters: str) -> str:
    """A text in the letters of an encoding: one that it hasn't is `?`, in as many columns."""
    return text if text.isascii() else "".join(it if has_letter(letters, it) else "?" * columns(it) for it in text)


def has_letter(letters: str, letter: str) -> bool:
    """Whether an encoding has a letter; one that isn't known may have each."""
    try:
        letter.encode(letters)
    except UnicodeEncodeError:
        return False
    except LookupError:
        return True
    return True


class NoTerminal(Exception):
    """A terminal that can't be used, and why."""


class Terminal:
    """The screen of a terminal, for as long as it is the view's."""

    def __init__(self, signals: Signals) -> None:
        self.signals, self.desk = signals, None  # type: Signals, Optional[Desk]
        self.began, self.last, self.empty = time.monotonic(), 0.0, 0
        self.colours: Dict[str, int] = {}
        # whether the terminal may have something else on it than what was put there
        self.is_stale = False
        # the encoding of the person's locale
        self.letters = locale.nl_langinfo(locale.CODESET)

    def __enter__(self) -> "Terminal":
        if hasattr(curses, "set_escdelay"):
            curses.set_escdelay(25)
        try:
            curses.setupterm()
            if not curses.tigetstr("cup"):
                raise NoTerminal("its cursor can't be moved")
            self.window = curses.initscr()
        except curses.error as error:
            raise NoTerminal(str(error)) from error
        try:
            curses.noecho()
            curses.cbreak()
            self.window.keypad(True)
            self.window.nodelay(True)
            self.begin_colours()
            for it in RESIZED:
                signal.signal(it, self.heard)
            self.signals.patience, self.signals.sign = PATIENCE, self.sign
        except BaseException:
            self.give_back()
            raise
        return self

    def __exit__(self, *_: object) -> None:
        self.signals.patience, self.signals.sign = None, lambda: None
        for it in RESIZED:
            signal.signal(it, signal.SIG_DFL)
        self.give_back()

    @staticmethod
    def give_back() -> None:
        """Leaves the terminal as it was; one that is gone needs nothing."""
        try:
            curses.endwin()
        except curses.error:
            pass

    def begin_colours(self) -> None:
        """Makes the colours, where there are some and they are wanted."""
        if os.environ.get("NO_COLOR") or not self.has_colours():
            return
        curses.use_default_colors()
        for number, (name, colour) in enumerate(COLOURS.items(), 1):
            if colour >= 0:
                curses.init_pair(number, colour, -1)
                self.colours[name] = curses.color_pair(number)

    @staticmethod
    def has_colours() -> bool:
        """Whether the terminal has colours."""
        try:
            curses.start_color()
        except curses.error:
            return False
        return curses.has_colors()

    def size(self) -> Tuple[int, int]:
        """How many rows and columns the terminal has now. One that tells none, as on a serial line, has those that curses takes it to have."""
        try:
            found = os.get_terminal_size(1)
        except OSError as error:
            raise Ending(signal.SIGHUP) from error
        rows, columns = (found.lines, found.columns) if found.lines and found.columns else self.window.getmaxyx()
        if (rows, columns) != self.window.getmaxyx():
            curses.resizeterm(rows, columns)
        return rows, columns

    def run(self, desk: Desk) -> None:
        """Draws, and does what keys ask for, until the person leaves."""
        self.desk = desk
        self.show(desk.screen())
        while True:
            for key in self.keys():
                self.begin()
                self.is_stale = self.is_stale or key == "ctrl-l"
                if key == "resize":
                    desk.resize(*self.size())
                else:
                    desk.key(key)
            self.begin()
            self.show(desk.screen())

    def heard(self, *_: object) -> None:
        """Notes that the terminal has another size, or had one: what was cut off there isn't there any more."""
        self.is_stale = True

    def begin(self) -> None:
        """Notes that something begins, of which a sign is given where it takes long."""
        self.began, self.last = time.monotonic(), 0.0

    # Keys

    def is_resized(self) -> bool:
        """Whether the terminal has another size than the screen that is drawn."""
        return self.size() != (self.desk.state.rows, self.desk.state.columns)

    def keys(self) -> List[str]:
        """The keys that were pressed, once there is one. What told of another size may have been heard before this waits, so the size is looked at first."""
        found: List[str] = []
        while not found:
            try:
                with self.signals.listening():
                    ready = [] if self.is_stale or self.is_resized() else select.select([0, self.signals.wake], [], [])[0]
            except Interrupted:
                return ["interrupt"]
            self.signals.drain()
            if self.is_stale or self.is_resized():
                found.append("resize")
            if 0 in ready:
                self.empty = 0 if self.num_waiting() else self.empty + 1
                found += self.pressed()
                if self.empty >= EMPTY:
                    raise Ending(signal.SIGHUP)
        return found

    @staticmethod
    def num_waiting() -> int:
        """How many bytes wait to be read; none where the terminal is gone. Keys without a name have some too."""
        try:
            return int.from_bytes(fcntl.ioctl(0, termios.FIONREAD, bytes(4)), sys.byteorder)
        except OSError:
            return 0

    def pressed(self) -> List[str]:
        """All keys that wait, by their names."""
        found: List[Union[int, str]] = []
        while True:
            try:
                found.append(self.window.get_wch())
            except curses.error:
                return named(found)

    # Rows

    def style(self, words: str) -> int:
        """What a style is on this terminal."""
        found = 0
        for it in words.split():
            found |= self.colours.get(it, 0) | (0 if it == "dim" and not self.colours else ATTRIBUTES.get(it, 0))
        return found

    def show(self, screen: Screen) -> None:
        """Puts a screen on the terminal: what changed, or all of it where something else may be there."""
        is_stale, self.is_stale = self.is_stale, False
        if is_stale:
            self.window.redrawwin()
        self.window.erase()
        for line, row in enumerate(screen.rows):
            self.put(line, row)
        self.point(screen.cursor)
        self.window.refresh()

    def put(self, line: int, row: Row) -> None:
        """Puts a row on the terminal. The last cell of all can't be written without scrolling: that it fails there is no matter."""
        try:
            self.window.move(line, 0)
            for it in row:
                self.window.addstr(spelt(it.text, self.letters), self.style(it.style))
        except curses.error:
            pass

    def point(self, cursor: Optional[Tuple[int, int]]) -> None:
        """Shows the terminal's cursor, or hides it."""
        try:
            curses.curs_set(1 if cursor else 0)
            if cursor:
                self.window.move(*cursor)
        except curses.error:
            pass

    def sign(self) -> None:
        """Tells that something takes long, and how it is broken off; at most ten times a second."""
        now = time.monotonic()
        if now - self.began < LONG or now - self.last < OFTEN or self.desk is None:
            return
        self.last = now
        state = self.desk.state
        self.put(state.rows - 1, fitted([Span(f"ksv works, {now - self.began:.1f} s; ctrl-C breaks it off", "key")], state.columns - 1))
        self.window.refresh()
