"""The view on a terminal: keys are sent to it, and its escapes are read.

A question that takes long is one of a program that is stopped: so it is as long on each machine.
"""
import fcntl
import os
import pty
import select
import signal
import struct
import sys
import termios
import time
from typing import Callable, Iterator, List, Optional, Tuple

from front.opening import TOP
from viewed import desks, fresh
from viewed.reader import Reader

VIEW = f"{TOP}/bin/ksv-view"
ICON = [f"{TOP}/examples/ico.bin", f"{TOP}/examples/ico.ksy"]
# How long a screen is awaited, in seconds, how long nothing may come for it to be whole, and how long the end is awaited.
PATIENCE, QUIET, END = 60, 0.15, 30
# A shell that goes on with the view after a line, where that was stopped.
JOB = '"$0" "$@"; echo stopped; read line; fg'
# How often a key is pressed that has no name.
NAMELESS = 6
# What is told where something takes long, after how many seconds at the most (the best of some), and how often that is looked at.
SIGN, SOON, TIMES = "ctrl-C breaks it off", 0.15, 4
# What a terminal sends for keys.
SENT = {
    "up": "\x1bOA", "down": "\x1bOB", "right": "\x1bOC", "left": "\x1bOD", "pgup": "\x1b[5~", "pgdn": "\x1b[6~", "home": "\x1bOH", "end": "\x1bOF",
    "delete": "\x1b[3~",
    "insert": "\x1b[2~", "tab": "\t", "enter": "\r", "backspace": "\x7f", "ctrl-r": "\x12", "ctrl-l": "\x0c", "ctrl-u": "\x15",
}
# Keys, after each of which the terminal has another size; each screen is the one that is drawn without a terminal.
STEPS = (
    "f e 2 2 enter down down right down right pgdn tab right down 0 a u ctrl-r u tab x / m a r k enter ? pgdn x end home g 0 x 2 0 enter e 1 "
    "backspace ctrl-u 7 enter"
)
SIZES = [(24, 80), (10, 40), (30, 132), (12, 60), (24, 80), (50, 100)]


class Terminal:
    """A view on a terminal of its own."""

    def __init__(self, words: List[str], rows: int = 24, columns: int = 80, is_job: bool = False, **environ: str) -> None:
        self.reader, self.size, self.status = Reader(rows, columns), (0, 0), None  # type: Reader, Tuple[int, int], Optional[int]
        self.process, self.ours = pty.fork()
        if self.process == 0:
            os.environ.update({"TERM": "xterm", "LC_ALL": "C.UTF-8", **environ})
            begun = [*(["/bin/sh", "-m", "-c", JOB] if is_job else []), sys.executable, "-B", VIEW, *words]
            os.execv(begun[0], begun)
        self.sized(rows, columns)

    def sized(self, rows: int, columns: int) -> None:
        """Gives the terminal a size. Where that is another one, all is drawn anew."""
        if (rows, columns) == self.size:
            return
        self.size = rows, columns
        self.reader.resize(rows, columns)
        fcntl.ioctl(self.ours, termios.TIOCSWINSZ, struct.pack("HHHH", rows, columns, 0, 0))

    def until(self, holds: Callable[[List[str]], bool], patience: float = PATIENCE) -> List[str]:
        """The rows once something holds of them and nothing more comes, or it has taken too long."""
        end = time.monotonic() + patience
        while time.monotonic() < end:
            ready, _, _ = select.select([self.ours], [], [], QUIET)
            if ready and not self.read():
                break
            if (not ready or SIGN in self.reader.lines()[-1]) and holds(self.reader.lines()):
                break
        return self.reader.lines()

    def read(self) -> bool:
        """Whether the terminal is still there, after what it sent."""
        try:
            some = os.read(self.ours, 1 << 16)
        except OSError:
            some = b""
        self.reader.feed(some)
        return bool(some)

    def type(self, keys: str) -> None:
        """Sends keys."""
        os.write(self.ours, keys.encode())

    def shown(self, keys: str, text: str) -> str:
        """Sends keys; nothing if the text is then on the screen, or else what is."""
        self.type(keys)
        rows = self.until(lambda rows: any(text in it for it in rows))
        return "" if any(text in it for it in rows) else f"terminal: after {keys!r} there is no {text!r}: {rows[-2:]} {rows}"

    def is_as(self, wanted: List[str]) -> str:
        """Nothing if the rows are these, or come to be; else what they are."""
        end, rows = time.monotonic() + PATIENCE, self.reader.lines()
        while rows != wanted and select.select([self.ours], [], [], max(0.0, end - time.monotonic()))[0] and self.read():
            rows = self.reader.lines()
        at = next((it for it in range(min(len(rows), len(wanted))) if rows[it] != wanted[it]), 0)
        return "" if rows == wanted else f"row {at} is {rows[at : at + 1]}, and not {wanted[at : at + 1]}"

    def program(self) -> int:
        """The program that the view asks."""
        for name in filter(str.isdigit, os.listdir("/proc")):
            try:
                with open(f"/proc/{name}/stat", encoding="utf-8", errors="replace") as file:
                    words = file.read().rpartition(")")[2].split()
            except OSError:
                continue
            if int(words[1]) == self.process and words[0] != "Z":
                return int(name)
        return 0

    def stop(self) -> int:
        """Stops the program that the view asks, so that its next answer doesn't come; its number."""
        found = self.program()
        if not found:
            raise AssertionError("the view asks no program")
        os.kill(found, signal.SIGSTOP)
        return found

    def end(self) -> int:
        """The status, once the view has ended; one that doesn't end is killed."""
        until = time.monotonic() + END
        while select.select([self.ours], [], [], max(0.0, until - time.monotonic()))[0] and self.read():
            pass
        if time.monotonic() >= until:
            os.kill(self.process, signal.SIGKILL)
        os.close(self.ours)
        return self.ended()

    def gone(self) -> int:
        """The status after the terminal is gone."""
        os.close(self.ours)
        return self.ended()

    def ended(self) -> int:
        """The status of the view as a process."""
        _, status = os.waitpid(self.process, 0)
        self.status = -os.WTERMSIG(status) if os.WIFSIGNALED(status) else os.WEXITSTATUS(status)
        return self.status


def repaired(room: str) -> Iterator[str]:
    """The icon is repaired, at several sizes, and saved to where `--save` said."""
    out = f"{room}/icon.ico"
    terminal = Terminal([*ICON, "--save", out])
    yield terminal.shown("", "? help  q quit")
    yield terminal.shown("f", "/entries/0/ofs_image  at 18 22 (0x12 0x16)  fault invalid")
    yield terminal.shown("e", "value of /entries/0/ofs_image (now 1a000000):")
    yield terminal.shown("22\r", "ok 350; u takes it back: put /entries/0/ofs_image 22")
    yield terminal.shown(SENT["down"] * 2, "/entries/0/image  at 22 350 (0x16 0x15e)  object bitmap")
    terminal.sized(10, 40)
    yield terminal.shown("", "? help  q quit")
    rows = terminal.reader.lines()
    yield "" if len(rows) == 10 and any("image  object bitmap" in it for it in rows) else f"40x10: {rows}"
    yield terminal.shown(SENT["tab"], "0-9 a-f write  Tab tree")
    terminal.sized(30, 132)
    yield terminal.shown("", "16 00 00 00[28 00 00 00")
    yield terminal.shown("ab", "ok 350; u takes it back: set 22 ab")
    yield terminal.shown("u", "took back: set 22 ab")
    yield terminal.shown(SENT["ctrl-r"], "again: set 22 ab")
    yield terminal.shown("u" + SENT["delete"], "ok 349; u takes it back: del 23 1")
    yield terminal.shown("u", "took back: del 23 1")
    terminal.type("q")
    status = terminal.end()
    yield "" if status == 0 and not terminal.reader.unknown else f"q: status {status}, {terminal.reader.unknown}"
    yield "" if not terminal.reader.is_alternate else "the terminal isn't given back"
    with open(out, "rb") as file, open(ICON[0], "rb") as origin:
        wanted = bytearray(origin.read())
        wanted[18] = 22
        yield "" if file.read() == bytes(wanted) else "what is saved isn't the repaired icon"
    yield "" if terminal.reader.colours else "there are no colours"


def without_colour(_room: str) -> Iterator[str]:
    """With NO_COLOR there is no colour, and a fault is to be seen nonetheless."""
    terminal = Terminal(ICON, NO_COLOR="1")
    yield terminal.shown("f", "fault invalid")
    terminal.type("q")
    status = terminal.end()
    yield "" if status == 0 and not terminal.reader.colours else f"NO_COLOR: status {status}, colours {terminal.reader.colours}"


def as_drawn(_room: str) -> Iterator[str]:
    """Keys, and after each another size: the terminal has the rows that are drawn without one."""
    terminal, wrong = Terminal(ICON), ""
    terminal.until(lambda rows: rows[-1].startswith("? help"))
    with desks.opened(*ICON) as desk:
        for count, word in enumerate(STEPS.split()):
            desks.press(desk, word)
            terminal.type(SENT.get(word, word))
            why = terminal.is_as([it.rstrip() for it in desks.play(desk, "")])
            rows, columns = SIZES[count % len(SIZES)]
            desk.resize(rows, columns)
            terminal.sized(rows, columns)
            why = why or terminal.is_as([it.rstrip() for it in desks.play(desk, "")])
            if why:
                wrong = f"terminal: after {' '.join(STEPS.split()[: count + 1])}, {columns}x{rows}: {why}"
                break
    yield wrong
    os.kill(terminal.process, signal.SIGTERM)
    status = terminal.end()
    yield "" if status == 143 else f"SIGTERM: status {status}"


def broken_off(_room: str) -> Iterator[str]:
    """A question that takes long has a sign, and ctrl-C breaks it off; the session and its edits go on. Another size that comes meanwhile is drawn after it."""
    terminal, waited = Terminal(ICON), []
    yield terminal.shown("", "? help  q quit")
    for _ in range(TIMES):
        terminal.stop()
        begun = time.monotonic()
        yield terminal.shown("f", SIGN)
        waited.append(time.monotonic() - begun)
        yield terminal.shown("\x03", "broken off")
        yield terminal.shown(SENT["ctrl-l"], "? help  q quit")
        yield terminal.shown("r", "read again:")
    terminal.stop()
    yield terminal.shown("f", SIGN)
    terminal.sized(12, 60)
    terminal.type("\x03")
    rows = terminal.until(lambda rows: rows[7].startswith("/  at 0 22"))
    yield "" if rows[7] == "/  at 0 22 (0x0 0x16)  object ico" else f"another size in a question: {rows}"
    terminal.sized(24, 80)
    yield terminal.shown(SENT["ctrl-l"], "? help  q quit")
    yield "" if min(waited) < SOON else f"the sign came after {' '.join(f'{it:.2f}' for it in waited)} s"
    yield terminal.shown("f", "fault invalid")
    yield terminal.shown("e22", "(now 1a000000): 22")
    terminal.stop()
    yield terminal.shown("\r", SIGN)
    yield terminal.shown("\x03", "broken off")
    yield terminal.shown(SENT["ctrl-l"], "ico.bin  350 bytes")
    yield terminal.shown("e22\r", "ico.bin  1 edit, not saved  350 bytes")
    asked = terminal.stop()
    yield terminal.shown("u", SIGN)
    os.kill(terminal.process, signal.SIGTERM)
    status = terminal.end()
    yield "" if status == 143 and not is_there(asked) else f"SIGTERM: status {status}"


def is_there(process: int) -> bool:
    """Whether a process is still there, after a while."""
    until = time.monotonic() + END
    while os.path.exists(f"/proc/{process}") and time.monotonic() < until:
        time.sleep(0.05)
    return os.path.exists(f"/proc/{process}")


def recovered(_room: str) -> Iterator[str]:
    """What was left by a session that ended so is offered, and taken up; the same where the terminal goes in the midst of a question."""
    terminal = Terminal(ICON)
    yield terminal.shown("", "left 1 edit, not saved")
    yield terminal.shown("R", "ico.bin  1 edit, not saved  350 bytes")
    yield terminal.shown("f", "no faults")
    asked = terminal.stop()
    yield terminal.shown(SENT["tab"] + "12", SIGN)
    status = terminal.gone()
    yield "" if status == 129 and not is_there(asked) else f"the terminal goes in a question: status {status}"
    terminal = Terminal(ICON)
    yield terminal.shown("", "left 1 edit, not saved")
    yield terminal.shown("R", "ico.bin  1 edit, not saved  350 bytes")
    yield terminal.shown("q", "q once more")
    terminal.type("q")
    status = terminal.end()
    yield "" if status == 0 else f"qq: status {status}"
    terminal = Terminal(ICON)
    yield terminal.shown("", "? help  q quit")
    terminal.type("q")
    yield "" if terminal.end() == 0 else f"q: status {terminal.status}"


def refused(room: str) -> Iterator[str]:
    """Names that can't be used, a description that is refused when it is read again, and a terminal that is closed."""
    file, ksy = f"{room}/again.bin", f"{room}/again.ksy"
    write(ksy, b"meta: {id: t}\nseq: [{id: n, type: u1}]\n")
    write(file, b"\x05\x06")
    terminal = Terminal([f"{room}/none", ksy])
    yield "" if terminal.end() == 1 else f"no file: status {terminal.status}"
    terminal = Terminal([file, ksy])
    yield terminal.shown(SENT["down"] + "e9\r", "ok 2; u takes it back: put /n 9")
    write(ksy, b"meta: {id: t}\nseq: [{id: n, type: u3}]\n")
    yield terminal.shown("r", "line 2: S4 unknown name")
    yield terminal.shown(SENT["up"] + SENT["down"], "n  9")
    write(ksy, b"meta: {id: t}\nseq: [{id: number, type: u2be}]\n")
    yield terminal.shown("r", "number  2310")
    status = terminal.gone()
    yield "" if status == 129 else f"a closed terminal: status {status}"
    terminal = Terminal([file, ksy])
    yield terminal.shown("", "left 1 edit, not saved")
    yield terminal.shown("R", "number  2310")
    yield terminal.shown(f"s{SENT['ctrl-u']}{room}/none/x\r", "there is no folder")
    yield terminal.shown(f"s{SENT['ctrl-u']}{room}/saved\r", "saved 2 bytes to")
    terminal.type("q")
    yield "" if terminal.end() == 0 else f"q after a save: status {terminal.status}"


def nameless(_room: str) -> Iterator[str]:
    """Keys that have no name here, one after the other, and bytes that are no letter: they do nothing, and the view goes on."""
    terminal = Terminal(ICON)
    yield terminal.shown("", "? help  q quit")
    for it in (b"\x01", b"\x1bOP", b"\xe4"):
        for _ in range(NAMELESS):
            os.write(terminal.ours, it)
            terminal.until(lambda _: True)
    yield terminal.shown("x", "kind  kind::icon (0x1)")
    terminal.type("q")
    yield "" if terminal.end() == 0 else f"keys without a name: status {terminal.status}"


def unknown_escapes(_room: str) -> Iterator[str]:
    """Keys that the terminal's description hasn't, over bytes: ctrl-Right, shift-Down, F5, Home of other terminals. No digit of theirs is written."""
    terminal = Terminal(ICON, TERM="vt100")
    yield terminal.shown("", "? help  q quit")
    yield terminal.shown(SENT["tab"], "0-9 a-f write  Tab tree")
    for it in ("\x1b[1;5C", "\x1b[1;2B", "\x1b[15~", "\x1b[1~", "\x1bO5D"):
        yield terminal.shown(f"{it}{it}g0\r", "0-9 a-f write  Tab tree")
        rows = terminal.reader.lines()
        yield "" if rows[0].startswith("ico.bin  350 bytes") and "0000[00 00]01" in rows[1] else f"{it!r} over bytes: {rows[:2]}"
    yield terminal.shown(f"{SENT['right']}ab", "ok 350; u takes it back: set 1 ab")
    terminal.type("qq")
    yield "" if terminal.end() == 0 else f"unknown keys: status {terminal.status}"


def sizeless(_room: str) -> Iterator[str]:
    """A terminal that doesn't tell its size: it is taken for one of 24 rows and 80 columns."""
    terminal = Terminal(ICON, 0, 0)
    terminal.reader.resize(24, 80)
    yield terminal.shown("", "? help  q quit")
    terminal.type("q")
    yield "" if terminal.end() == 0 else f"a terminal without a size: status {terminal.status}"


def stopped(_room: str) -> Iterator[str]:
    """A view that is stopped by ctrl-Z gives the terminal back; where the terminal has another size when it goes on, it has that size at once."""
    terminal = Terminal(ICON, is_job=True)
    yield terminal.shown("", "? help  q quit")
    yield terminal.shown("\x1a", "stopped")
    yield "" if not terminal.reader.is_alternate else "ctrl-Z: the terminal isn't given back"
    terminal.sized(30, 132)
    yield terminal.shown("\r", "? help  q quit  f fault  e edit  s save  u undo  Tab bytes  / search  g go to  arrows walk  r read ksy again")
    terminal.type("q")
    yield "" if terminal.end() == 0 else f"ctrl-Z: status {terminal.status}"


def ended_by_key(_room: str) -> Iterator[str]:
    """A view that is ended by ctrl-\\ gives the terminal back."""
    terminal = Terminal(ICON)
    yield terminal.shown("", "? help  q quit")
    terminal.type("\x1c")
    status = terminal.end()
    yield "" if status == 131 and not terminal.reader.is_alternate else f"ctrl-\\: status {status}, the terminal isn't given back"


def repainted(_room: str) -> Iterator[str]:
    """What something else puts on the terminal goes with ctrl-L; and a terminal that has another size for a moment has all that was cut off."""
    terminal = Terminal(ICON)
    wanted = terminal.until(lambda rows: rows[-1].startswith("? help"))
    terminal.reader.feed(b"\x1b[5;3Helsewhere")
    terminal.type(SENT["ctrl-l"])
    yield terminal.is_as(wanted)
    terminal.sized(5, 20)
    terminal.sized(24, 80)
    yield terminal.is_as(wanted)
    terminal.type("q")
    yield "" if terminal.end() == 0 else f"repainted: status {terminal.status}"


def other_locale(room: str) -> Iterator[str]:
    """A locale that this machine hasn't: letters are as in UTF-8. One that hasn't the letters: each is `?` in as many columns."""
    file, ksy = f"{room}/letters.bin", f"{room}/letters.ksy"
    write(ksy, b"meta: {id: t, encoding: UTF-8}\nseq: [{id: word, type: strz}]\n")
    write(file, "gr\u00fc\u00dfe \u4e2d".encode() + b"\0")
    terminal = Terminal([file, ksy], LC_ALL="xx_XX.UTF-8")
    yield terminal.shown("", "gr\u00fc\u00dfe \u4e2d")
    terminal.type("q")
    yield "" if terminal.end() == 0 else f"a locale that isn't there: status {terminal.status}"
    terminal = Terminal([file, ksy], LC_ALL="C")
    yield terminal.shown("", '      word  "gr??e ??"                 0-c')
    terminal.type("q")
    yield "" if terminal.end() == 0 else f"LC_ALL=C: status {terminal.status}"


def write(path: str, content: bytes) -> None:
    """Writes a file."""
    with open(path, "wb") as file:
        file.write(content)


def trials(room: str) -> Iterator[str]:
    """All trials on terminals. No session is left to the next one, but those that end in `broken_off` to `recovered`."""
    every = (repaired, without_colour, as_drawn, broken_off, recovered, refused, nameless, unknown_escapes, sizeless, stopped, ended_by_key, repainted,
             other_locale)
    for it in every:
        if it is not recovered:
            fresh.apart(room)
        yield from it(room)
