"""Cases of saves that were broken off, refused or asked for twice, and of bytes that were called saved and weren't."""
import contextlib
import os
import random
import re
import signal
from typing import Callable, Dict

from fronts.model import KSY
from fronts.room import DIED, NO_MEMORY, Piped, Terminal, Tree, room_of, settled

Case = Callable[[Tree], str]
LARGE = random.Random(1).randbytes(1 << 24)
SMALL = random.Random(2).randbytes(100)


def interrupted_save(signum: int, number: int) -> Case:
    """A save of 16 MiB over the file itself, after a `del` that was taken back, is broken off at one of its questions."""

    def case(tree: Tree) -> str:
        """What is wrong with it."""
        with room_of(tree, {"FILE": LARGE, "KSY": KSY}) as room:
            with contextlib.closing(Piped(room, "--save", "FILE", "FILE", "KSY")) as shell:
                shell.ask("del 0 16000000")
                shell.ask("undo")
                room.control.arm([(number, signum, 0)])
                shell.ask("save")
                room.control.disarm()
            settled(room)
            now = room.read("FILE")
            return "" if now == LARGE else f"{len(now)} bytes are left of {len(LARGE)}"

    return case


def interrupted_undo(number: int) -> Case:
    """An `undo` of many lines is broken off at one of its questions: it is done, or isn't."""

    def case(tree: Tree) -> str:
        """What is wrong with it."""
        content = LARGE[:200_000]
        with room_of(tree, {"FILE": content, "KSY": KSY}) as room, contextlib.closing(Terminal(room)) as shell:
            shell.ask("del 0 150000")
            room.control.arm([(number, signal.SIGINT, 0)])
            shell.ask("undo")
            fired = room.control.disarm()[1]
            own = shell.ask("size"), shell.ask("edits")
            if own not in (("size 200000", "  and 1 that `redo` makes again\nsaved: yes"), ("size 50000", "   1  del 0 150000\nsaved: no")):
                return f"{own}, {fired} met"
        return ""

    return case


def interrupted_twice(tree: Tree) -> str:
    """A question is broken off, and so is the beginning anew after it, at each of its lines: the next question has its own reply."""
    with room_of(tree, {"FILE": SMALL, "KSY": KSY}) as room, contextlib.closing(Terminal(room)) as shell:
        for count in range(8):
            shell.ask(f"set {10 + count} 0{count}")
        for number in range(2, 11):
            room.control.arm([(1, signal.SIGINT, 0), (number, signal.SIGINT, 0)])
            shell.ask("bytes 10 1")
            shell.ask("size")
            room.control.disarm()
            for count in (3, 7):
                told = shell.ask(f"bytes {10 + count} 1")
                if told != f"hex 0{count}":
                    return f"again at {number}: the byte {10 + count} is told as {told!r}"
    return ""


def versions(tree: Tree) -> str:
    """No other state is called saved than the one that was."""
    with room_of(tree, {"FILE": SMALL, "KSY": KSY}) as room, contextlib.closing(Piped(room)) as shell:
        wrong, states = 0, 0
        for count in range(60):
            shell.ask(f"set 0 {count:02x}")
            shell.ask("save OUT")
            for more in range(6):
                shell.ask("undo")
                shell.ask(f"set 1 {more:02x}")
                wrong, states = wrong + ("saved: yes" in shell.ask("edits")), states + 1
        return f"{wrong} of {states} states are called saved" if wrong else ""


def refused_line(tree: Tree) -> str:
    """What is told to be saved is, where memory is refused at any question below `save`."""
    for number in range(1, 9):
        with room_of(tree, {"FILE": SMALL, "KSY": KSY}) as room, contextlib.closing(Piped(room)) as shell:
            shell.ask(f"ins 0 {'11' * 1000}")
            shell.ask(f"ins 0 {'22' * 1000}")
            room.control.arm([(number, NO_MEMORY, 0)])
            told, saved = shell.ask("save OUT"), room.read("OUT")
            found = re.search(r"saved (\d+) bytes", told)
            if found and len(saved or b"") != int(found[1]):
                return f"question {number}: {told!r}, but OUT has {len(saved or b'')} bytes"
            if "saved: yes" in shell.ask("edits") and len(saved or b"") != 2100:
                return f"question {number}: called saved, but OUT has {len(saved or b'')} bytes"
    return ""


def failing_status(tree: Tree) -> str:
    """A save that fails gives status 3 in a pipe."""
    for name in ("none/OUT", "home"):
        with room_of(tree, {"FILE": SMALL, "KSY": KSY}) as room, contextlib.closing(Piped(room)) as shell:
            shell.ask("set 0 00")
            shell.ask(f"save {name}")
            if shell.end_input() != 3:
                return f"save {name}: status {shell.status}"
    with room_of(tree, {"FILE": SMALL, "KSY": KSY}) as room, contextlib.closing(Piped(room, "--save", "OUT", "FILE", "KSY")) as shell:
        shell.ask("set 0 00")
        os.mkdir(room.path("OUT"))
        return "" if shell.end_input() == 3 else f"--save: status {shell.status}"


def no_edits(tree: Tree) -> str:
    """With --save OUT and no edits there is an OUT at the end."""
    for last in (["quit"], []):
        with room_of(tree, {"FILE": SMALL, "KSY": KSY}) as room, contextlib.closing(Piped(room, "FILE", "KSY", "--save=OUT")) as shell:
            for line in last:
                shell.ask(line)
            shell.end_input()
            if (shell.status, room.read("OUT")) != (0, SMALL):
                return f"{last}: status {shell.status}, OUT {room.read('OUT')}"
    return ""


def reasons(tree: Tree) -> str:
    """`save` tells why it can't write."""
    with room_of(tree, {"FILE": SMALL, "KSY": KSY}) as room, contextlib.closing(Piped(room)) as shell:
        shell.ask("set 0 00")
        os.symlink("none/OUT", room.path("LINK"))
        for name, wanted in (("none/OUT", "there is no folder none"), ("home", "it is a folder"), ("FILE/OUT", "there is no folder FILE"), ("OUT/", "it is a folder"),
                             ("LINK", f"there is no folder {os.path.realpath(room.folder)}/none")):
            told = shell.ask(f"save {name}")
            if wanted not in told:
                return f"save {name}: {told!r}"
    return ""


def two_shells(tree: Tree) -> str:
    """Of two shells over one file the later one to save is told before it saves over the other's bytes, and then it may."""
    for words, line in (((), "save FILE"), (("--save", "FILE", "FILE", "KSY"), "save")):
        with room_of(tree, {"FILE": SMALL, "KSY": KSY}) as room, contextlib.closing(Piped(room, *words)) as one, contextlib.closing(Piped(room, *words)) as two:
            one.ask("set 0 01")
            two.ask("set 1 02")
            one.ask(line)
            first = b"\x01" + SMALL[1:]
            told = two.ask(line)
            if room.read("FILE") != first or "isn't as it was" not in told:
                return f"{line}: {told!r}, and the first one's byte is {room.read('FILE')[0]}"
            told = two.ask(line)
            if room.read("FILE") != SMALL[:1] + b"\x02" + SMALL[2:]:
                return f"{line} once more: {told!r}"
    return ""


def changed_since(tree: Tree) -> str:
    """A session is taken up over a file that another program changed since: no state is called saved, and a save over the file is asked about."""
    with room_of(tree, {"FILE": SMALL, "KSY": KSY}) as room:
        with contextlib.closing(Piped(room)) as shell:
            shell.ask("set 0 ff")
            shell.ask("save FILE")
            shell.ask("set 1 ee")
        room.write("FILE", b"another")
        with contextlib.closing(Piped(room)) as shell:
            greeting = shell.told_aside()
            found = [shell.ask(it) for it in ("recover", "edits", "undo", "edits", "save FILE", "save FILE", "edits")]
        wanted = ["was changed since", "saved: no", "took back: set 1 ee", "saved: no", "isn't as it was", "saved 100 bytes", "saved: yes"]
        is_right = "was changed since" in greeting and all(it in own for own, it in zip(found, wanted)) and room.read("FILE") == b"\xff" + SMALL[1:]
        return "" if is_right else f"{greeting!r}, {found}"


def own_save(tree: Tree) -> str:
    """A session that saved over the file, and one that ended before it was told that it had, are taken up without a word of a change, and saved so."""
    for number in (0, 4, 5):
        with room_of(tree, {"FILE": SMALL, "KSY": KSY}) as room:
            with contextlib.closing(Piped(room)) as shell:
                shell.ask("set 0 ff")
                shell.ask("save FILE")
                shell.ask("set 1 ee")
                if number:
                    room.control.arm([(number, signal.SIGKILL, 0)])
                    shell.ask("save FILE")
                    room.control.disarm()
            settled(room)
            is_there = room.read("FILE") == b"\xff\xee" + SMALL[2:]
            with contextlib.closing(Piped(room)) as shell:
                greeting = shell.told_aside()
                found = [shell.ask(it) for it in ("recover", "set 2 dd", "save FILE")]
            is_right = "changed" not in greeting and "changed" not in found[0] and found[2] == "saved 100 bytes to FILE"
            if not is_right or is_there != bool(number) or is_there != (found[0] == "nothing to recover"):
                return f"{number}: {greeting!r}, {found}, saved: {is_there}"
    return ""


def two_spaces(tree: Tree) -> str:
    """The spaces of a name are its own."""
    with room_of(tree, {"FILE": SMALL, "KSY": KSY}) as room, contextlib.closing(Piped(room)) as shell:
        for line, name in (("save a  b", "a  b"), ('save "c  d"', "c  d"), ("save e ", "e"), ('save "f "', "f ")):
            shell.ask(line)
            if room.read(name) != SMALL:
                return f"{line}: there is {sorted(os.listdir(room.folder))}"
    return ""


def died_under(kind: int, name: str) -> Case:
    """The program ends at each question below a line: the session goes on, with its edits."""

    def case(tree: Tree) -> str:
        """What is wrong with it."""
        with room_of(tree, {"FILE": SMALL, "KSY": KSY}) as room, contextlib.closing(Piped(room)) as shell:
            shell.ask("set 0 ff")
            for line in ("get /a", "hex 0 64", "set 1 ff", "undo", "save OUT"):
                for number in range(1, 5):
                    room.control.arm([(number, kind, 0)])
                    shell.ask(line)
                    room.control.disarm()
                    if shell.status is not None:
                        return f"{name} at question {number} of {line}: status {shell.status}"
                    told = shell.ask("bytes 0 1")
                    if told not in ("hex ff", f"hex {SMALL[:1].hex()}"):
                        return f"{name} at question {number} of {line}: then {told!r}"
        return ""

    return case


CASES: Dict[str, Case] = {
    **{f"1: a save of 16 MiB, {signal.Signals(signum).name} at question {number}": interrupted_save(signum, number)
       for signum, number in ((signal.SIGINT, 3000), (signal.SIGTERM, 20), (signal.SIGHUP, 4000), (signal.SIGKILL, 2000))},
    **{f"2: an undo that is broken off at question {number}": interrupted_undo(number) for number in (2, 3, 40)},
    "2: two ctrl-C": interrupted_twice,
    "3: versions": versions,
    "3: a refused line of a save": refused_line,
    "4: the program is killed": died_under(DIED, "killed"),
    "4: no memory": died_under(NO_MEMORY, "no memory"),
    "5: a name with two spaces": two_spaces,
    "7: the status of a failing save": failing_status,
    "7: --save and no edits": no_edits,
    "7: why a save fails": reasons,
    "7: two shells": two_shells,
    "more: a file that was changed since": changed_since,
    "more: saves that are a session's own": own_save,
}
