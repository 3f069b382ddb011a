"""Cases of what ended the shell with all its edits, and of lines that were read as others."""
import contextlib
import os
import random
import signal
import subprocess
import time
from typing import Callable, Dict, List, Tuple

from fronts.model import KSY
from fronts.room import NO_MEMORY, PATIENCE, Piped, Room, Terminal, Tree, room_of

Case = Callable[[Tree], str]
SMALL = random.Random(3).randbytes(100)
# A text that isn't ASCII, and a description of it.
TEXT, TEXT_KSY = "a\u00e4\u4e2d".encode() + SMALL, b"meta: {id: t, encoding: UTF-8}\nseq: [{id: name, type: str, size: 6}]\n"
DIGITS = "1" * 5000
# Lines that ended the shell, or hung it, and what must be told of each.
LINES: List[Tuple[str, str]] = [
    ("where \u00b2", "where POS:"), ("hex 0 \u00b2", "hex POS|PATH [N]:"), (f"where {DIGITS}", "where POS:"), (f"hex {DIGITS} 1", "error"), (f"hex 0 {DIGITS}", "hex POS|PATH [N]:"),
    (f"tree / {DIGITS}", "tree"), (f"where 0x{DIGITS}", "where POS:"), ("save a\0b", "no byte 0"),
]
# Lines that are refused as well.
MORE: List[Tuple[str, str]] = [
    ("tree / \u00b2", "tree [PATH] [DEPTH]:"), ("bytes \u00b2 1", "error: bad number"), ("del \u0664 1", "error: bad number"), (f"get /{DIGITS}", "error"), (f"raw del 0 {DIGITS}", "error"),
    (f"del 0 {DIGITS}", "error"), (f"bytes {DIGITS} 1", "error"), (f"put /a {DIGITS}", "error"), ('save "a\\0b"', "no byte 0"), ("get /a\0b", "error"), ("find \0", "find HEX"),
    ("cd \0", "error"), ("raw \0", "error"), ("\0", "no such command"), ("raw", ""), ("recover \0", "recover"), ('save ""', "save OUT"), ('"', "a quote"),
    ('extract /b "a\\0b"', "no byte 0"), ('insert 0 "a\\0b"', "no byte 0"), ('replace /b "a\\0b"', "no byte 0"), ('diff "a\\0b"', "no byte 0"), ("extract /b a\0b", "no byte 0"),
]


def lines_at_once(tree: Tree) -> str:
    """A line end that is pasted into a line, or typed after ctrl-V, ends a line as others do: each is done."""
    with room_of(tree, {"FILE": SMALL, "KSY": KSY}) as room, contextlib.closing(Terminal(room)) as shell:
        for line, wanted in (("set 0 ff\x16\nbytes 0 1", "hex ff"), ("\x1b[200~set 1 ee\nbytes 0 2\n\x1b[201~", "hex ffee")):
            told = shell.ask(line)
            if shell.status is not None or told != f"ok 100\n{wanted}":
                return f"{line!r}: {told[-200:]!r}, status {shell.status}"
    return ""


def lines_broken_off(tree: Tree) -> str:
    """Of lines that are pasted together, those behind one that is broken off aren't done."""
    with room_of(tree, {"FILE": SMALL, "KSY": KSY}) as room, contextlib.closing(Terminal(room)) as shell:
        room.control.arm([(1, signal.SIGINT, 0)])
        told = shell.ask("bytes 0 1\x16\nset 0 ff")
        fired = room.control.disarm()[1]
        after = shell.ask("bytes 0 1")
        return "" if fired and "broken off" in told and after == f"hex {SMALL[:1].hex()}" else f"{told!r}, then {after!r}, {fired} met"


def line_that_ended(line: str, wanted: str) -> Case:
    """A line is refused, and the session goes on with its edits."""

    def case(tree: Tree) -> str:
        """What is wrong with it."""
        with room_of(tree, {"FILE": SMALL, "KSY": KSY}) as room, contextlib.closing(Piped(room)) as shell:
            shell.ask("set 0 ff")
            told = shell.ask(line)
            after = shell.ask("bytes 0 1")
            if wanted not in told or after != "hex ff" or shell.status is not None or "Traceback" in shell.told_aside():
                return f"{told[:200]!r}, then {after!r}, status {shell.status}, {shell.told_aside()[-200:]!r}"
        return ""

    return case


def no_memory_under_hex(tree: Tree) -> str:
    """Where memory is refused under `hex`, once or twice, that is told, and the session goes on."""
    with room_of(tree, {"FILE": SMALL, "KSY": KSY}) as room, contextlib.closing(Piped(room)) as shell:
        shell.ask("set 0 ff")
        for line, numbers in (("hex 0 64", (1, 2, 3, 4)), ("hex /a", (1, 3, 5)), ("find ff", (2,)), ("where 0", (2, 5)), ("tree", (3,))):
            for number in numbers:
                for more in (0, 1, 2):
                    room.control.arm([(number, NO_MEMORY, 0), (number + more, NO_MEMORY, 0)])
                    told = shell.ask(line)
                    room.control.disarm()
                    after = shell.ask("bytes 0 1")
                    if after != "hex ff" or shell.status is not None or "Traceback" in shell.told_aside():
                        return f"{line}, {number} and {number + more}: {told!r}, then {after!r}, status {shell.status}"
    return ""


def left_alone(room: Room, wanted: bytes, lines: str) -> str:
    """What is wrong with what a session left that ended: the next one takes its edits up."""
    with contextlib.closing(Piped(room)) as shell:
        told, own = shell.ask("recover"), shell.ask("edits")
        room.control.want_dump()
        shell.ask("size")
        is_right = room.dump() == wanted and own == lines
        return "" if is_right else f"`recover` tells {told!r}, and then edits are {own!r}"


def encoded(**environ: str) -> Case:
    """Replies that the encoding of standard output can't write end nothing."""

    def case(tree: Tree) -> str:
        """What is wrong with it."""
        with room_of(tree, {"FILE": TEXT, "KSY": TEXT_KSY}) as room, contextlib.closing(Piped(room, **environ)) as shell:
            for line in ("set 20 ff", "get /name", 'find "\u00e4"', "\u00e4", "tree", "get /\u00e4", "help", "\udcff"):
                shell.ask(line)
            own = shell.ask("bytes 20 1")
            if own != "hex ff" or shell.status is not None:
                return f"{own!r}, status {shell.status}, {shell.told_aside()[-200:]!r}"
        return ""

    return case


def typed(encoding: str) -> Case:
    """Bytes that are typed and are no text of the terminal's encoding end nothing: they are read as through a pipe."""

    def case(tree: Tree) -> str:
        """What is wrong with it."""
        with room_of(tree, {"FILE": SMALL, "KSY": KSY}) as room, contextlib.closing(Terminal(room, PYTHONIOENCODING=encoding)) as shell:
            for line, wanted in (('set 0 "\udcff\xe4"', "ok 100"), ("bytes 0 3", "hex ffc3a4"), ("get \udcff", "error: bad path")):
                told = shell.ask(line)
                if shell.status is not None or not told.startswith(wanted):
                    return f"{line!r}: {told[-200:]!r}, status {shell.status}"
        return ""

    return case


def broken_pipe(tree: Tree) -> str:
    """Where nobody reads what is told, the edits stay, and the shell tells that it ended."""
    with room_of(tree, {"FILE": SMALL, "KSY": KSY}) as room:
        lines = "set 0 ff\nset 1 ee\n" + "size\n" * 400 + "bytes 0 100\n" * 400
        words = f"'{tree.shell}' FILE KSY | head -1"
        ran = subprocess.run(["bash", "-c", f"{words}; exit ${{PIPESTATUS[0]}}"], cwd=room.folder, env=room.environ, input=lines, capture_output=True, text=True, check=False)
        if ran.returncode != 3 or "Traceback" in ran.stderr:
            return f"status {ran.returncode}, {ran.stderr[-200:]!r}"
        return left_alone(room, b"\xff\xee" + SMALL[2:], "   1  set 0 ff\n   2  set 1 ee\nsaved: no")


def full_output(tree: Tree) -> str:
    """Where what is told can't be written, the edits stay."""
    with room_of(tree, {"FILE": SMALL, "KSY": KSY}) as room:
        words = f"'{tree.shell}' FILE KSY > /dev/full"
        ran = subprocess.run(["bash", "-c", words], cwd=room.folder, env=room.environ, input="set 0 ff\nset 1 ee\n", capture_output=True, text=True, check=False)
        if ran.returncode != 3 or "Traceback" in ran.stderr:
            return f"status {ran.returncode}, {ran.stderr[-200:]!r}"
        return left_alone(room, b"\xff" + SMALL[1:], "   1  set 0 ff\nsaved: no")


def broken_off_first(tree: Tree) -> str:
    """Ctrl-C before the session begins, while Python reads the modules, ends the prompt and the view without a word."""
    with room_of(tree, {"FILE": SMALL, "KSY": KSY}) as room:
        own = Tree(room.path("own"), is_proxied=False)
        for name, module in (("ksv-shell", "prompt.py"), ("ksv-view", "view/main.py")):
            with open(f"{own.folder}/front/{module}", "a", encoding="utf-8") as file:
                file.write("\nimport os, signal\nos.kill(os.getpid(), signal.SIGINT)\n")
            ran = subprocess.run([f"{own.folder}/bin/{name}", "FILE", "KSY"], cwd=room.folder, env=room.environ, input="", capture_output=True, text=True, check=False)
            if (ran.returncode, ran.stdout, ran.stderr) != (-signal.SIGINT, "", ""):
                return f"{name}: status {ran.returncode}, {ran.stderr[-200:]!r}"
    return ""


def full_help(tree: Tree) -> str:
    """Where help can't be written, that is told, with the status that the program has then."""
    for name in ("ksv-shell", "ksv-view"):
        for to in ("> /dev/full", ">&-"):
            ran = subprocess.run(["bash", "-c", f"'{tree.folder}/bin/{name}' --help {to}"], capture_output=True, text=True, check=False)
            if ran.returncode != 3 or not ran.stderr.startswith(f"{name}: output failed: ") or ran.stderr.count("\n") > 1:
                return f"{name} {to}: status {ran.returncode}, {ran.stderr[-200:]!r}"
    return ""


def full_disk(tree: Tree) -> str:
    """Where a part can't be written to a new file as a whole, nothing is left of that, and the next try has the same end."""
    with room_of(tree, {"FILE": SMALL, "KSY": b"meta: {id: t}\nseq: [{id: all, size-eos: true}]\n"}) as room:
        lines = f"app {'00' * 2000}\n" * 5 + "extract all PART\n" * 2
        words = f"ulimit -f 8; exec '{tree.shell}' FILE KSY"
        ran = subprocess.run(["bash", "-c", words], cwd=room.folder, env=room.environ, input=lines, capture_output=True, text=True, check=False)
        is_right = ran.stdout.count("File too large\n") == 2 and room.read("PART") is None
        return "" if is_right else f"{ran.stdout[-200:]!r}, {ran.stderr[-200:]!r}, {len(room.read('PART') or b'')} bytes"


def signalled(signum: int, is_terminal: bool, *words: str) -> Case:
    """A signal ends the shell while it waits for a line: OUT is as it was, and the edits are taken up by the next session."""

    def case(tree: Tree) -> str:
        """What is wrong with it."""
        with room_of(tree, {"FILE": SMALL, "KSY": KSY, "OUT": b"old"}) as room:
            with contextlib.closing((Terminal if is_terminal else Piped)(room, *words)) as shell:
                shell.ask("set 0 ff")
                shell.ask("set 1 ee")
                status = ended_by(shell, signum)
            if status not in (128 + signum, -signum) or room.read("OUT") != b"old" or room.read("FILE") != SMALL:
                return f"status {status}, OUT {room.read('OUT')[:20]!r}"
            return left_alone(room, b"\xff\xee" + SMALL[2:], "   1  set 0 ff\n   2  set 1 ee\nsaved: no")

    return case


def ended_by(shell: "Piped | Terminal", signum: int) -> int:
    """The status of a shell after a signal."""
    time.sleep(0.05)
    os.kill(shell.pid, signum)
    if isinstance(shell, Piped):
        shell.status = shell.running.wait(PATIENCE)
    else:
        shell.status = os.waitstatus_to_exitcode(os.waitpid(shell.pid, 0)[1])
    return shell.status


def quit_twice(tree: Tree) -> str:
    """A second `quit` at a terminal, whose save fails again, leaves the edits in the journal."""
    with room_of(tree, {"FILE": SMALL, "KSY": KSY}) as room:
        with contextlib.closing(Terminal(room, *SAVE)) as shell:
            shell.ask("set 0 ff")
            os.mkdir(room.path("OUT"))
            shell.ask("quit")
            if shell.status is not None:
                return f"it ends with status {shell.status}"
            shell.ask("quit")
            if shell.status != 3:
                return f"then status {shell.status}"
        return left_alone(room, b"\xff" + SMALL[1:], "   1  set 0 ff\nsaved: no")


def closed_streams(tree: Tree) -> str:
    """Where standard input, output or error is closed, that is no error of the shell's own."""
    for closed in ("<&-", ">&-", "2>&-", "<&- >&- 2>&-"):
        with room_of(tree, {"FILE": SMALL, "KSY": KSY}) as room:
            ran = subprocess.run(["sh", "-c", f"'{tree.shell}' FILE KSY {closed}"], cwd=room.folder, env=room.environ, input="set 0 ff\n", capture_output=True, text=True, check=False)
            if "Traceback" in ran.stderr or ran.returncode not in (0, 3):
                return f"{closed}: status {ran.returncode}, {ran.stderr[-300:]!r}"
    return ""


def bytes_written(line: str, wanted: str) -> Case:
    """The bytes that a line writes."""

    def case(tree: Tree) -> str:
        """What is wrong with it."""
        with room_of(tree, {"FILE": SMALL, "KSY": KSY}) as room, contextlib.closing(Piped(room)) as shell:
            shell.ask(line)
            own = shell.ask(f"bytes 43 {len(wanted) // 2}")
            return "" if own == f"hex {wanted}" else own

    return case


def finds_all(tree: Tree) -> str:
    """`find` looks for all bytes of a text, spaces too."""
    content = b"FAT16x  FAT16  yFAT16   zFAT16   "
    with room_of(tree, {"FILE": content, "KSY": KSY}) as room, contextlib.closing(Piped(room)) as shell:
        told = shell.ask('find "FAT16   "')
        return "" if told == "at 16 24  (0x10)\nat 25 33  (0x19)" else told


SAVE = ("--save", "OUT", "FILE", "KSY")
CASES: Dict[str, Case] = {
    **{f"4: the line {line[:20]!r}": line_that_ended(line, wanted) for line, wanted in LINES},
    **{f"more: the line {line[:20]!r}": line_that_ended(line, wanted) for line, wanted in MORE},
    "more: lines at once": lines_at_once,
    "more: lines at once, broken off": lines_broken_off,
    "4: no memory under hex": no_memory_under_hex,
    "4: output in ASCII": encoded(PYTHONIOENCODING="ascii"),
    "4: output in C": encoded(LC_ALL="C", PYTHONUTF8="0", PYTHONCOERCECLOCALE="0"),
    "4: output in Latin 1": encoded(PYTHONIOENCODING="latin1"),
    **{f"more: no text of {it} typed": typed(it) for it in ("utf-8:strict", "ascii")},
    "4: a broken pipe": broken_pipe,
    "more: ctrl-C before the session": broken_off_first,
    "more: help that can't be written": full_help,
    "more: a part that a disk has no room for": full_disk,
    "4: full output": full_output,
    **{f"4: {signal.Signals(signum).name}{' at a terminal' if is_terminal else ''} {' '.join(words[:2])}": signalled(signum, is_terminal, *words)
       for signum in (signal.SIGHUP, signal.SIGTERM, signal.SIGKILL) for is_terminal in (False, True) for words in ((), SAVE)},
    "more: a second quit": quit_twice,
    "more: closed streams": closed_streams,
    "4: SIGINT in a pipe": signalled(signal.SIGINT, False),
    "5: two spaces in a text": bytes_written('set 43 "A  B"', "41202042"),
    "5: tabs in a text": bytes_written('set 43 "A\t\t B"', "4109092042"),
    "5: spaces at a text's end": bytes_written('ins 43 "AB  "', "41422020"),
    "5: find spaces": finds_all,
}
