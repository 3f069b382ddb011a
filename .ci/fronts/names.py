"""Cases of names: files by other names, links that lead elsewhere by now, and what is no file, which is told, never waited for and never replaced."""
import contextlib
import os
import random
import stat
import subprocess
import time
from typing import Callable, Dict, List, Tuple

from fronts.model import KSY
from fronts.room import Piped, Room, Tree, room_of

Case = Callable[[Tree], str]
SMALL = random.Random(4).randbytes(100)
FILES = {"FILE": SMALL, "KSY": KSY}
# The most seconds that a line takes about what is no file; a pipe that nobody reads would be waited for without end.
AT_ONCE = 5.0
# What is no file, and what is told of it.
OTHERS: List[Tuple[str, str]] = [
    ("PIPE", "a pipe"), ("TO-PIPE", "a pipe"), ("/dev/null", "a device"), ("/dev/zero", "a device"), ("/dev/full", "a device"), ("TO-NULL", "a device"),
    ("SOME", "a folder"),
]


def made(room: Room) -> None:
    """Makes a pipe, a folder, and links."""
    os.mkfifo(room.path("PIPE"))
    os.mkdir(room.path("SOME"))
    for name, to in (("TO-PIPE", "PIPE"), ("TO-NULL", "/dev/null"), ("LINK", "FILE")):
        os.symlink(to, room.path(name))
    os.link(room.path("FILE"), room.path("HARD"))


def kinds(room: Room) -> List[str]:
    """What is in a room: each name with its kind."""
    names = [it for it in os.listdir(room.folder) if it not in ("home", "dump", "errors")]
    return sorted(f"{it} {stat.S_IFMT(os.lstat(room.path(it)).st_mode):o}" for it in names)


def saved_to(name: str, what: str) -> Case:
    """A save to what is no file is told at once, and nothing is in its place after it; nor by `--save`, before the session."""

    def case(tree: Tree) -> str:
        """What is wrong with it."""
        with room_of(tree, FILES) as room:
            made(room)
            before, begun = kinds(room), time.monotonic()
            with contextlib.closing(Piped(room)) as shell:
                shell.ask("set 0 ff")
                told = shell.ask(f"save {name}")
                status = shell.end_input()
            ran = started(room, "--save", name, "FILE", "KSY")
            if f"cannot write: it is {what}" not in told or status != 3 or ran[0] != 3 or f"cannot write: it is {what}" not in ran[1]:
                return f"{told!r}, status {status}, --save: {ran}"
            took = time.monotonic() - begun
            return "" if kinds(room) == before and took < 2 * AT_ONCE else f"{kinds(room)}, and not {before}, in {took:.1f} s"

    return case


def started(room: Room, *words: str) -> Tuple[int, str]:
    """The status of a session that has no line, and what it told on standard error."""
    try:
        ran = subprocess.run([room.tree.shell, *words], cwd=room.folder, env=room.environ, input="", capture_output=True, text=True, timeout=4 * AT_ONCE, check=False)
    except subprocess.TimeoutExpired:
        return -1, "it hangs"
    return ran.returncode, ran.stderr


def opened(name: str) -> Case:
    """What is no file is neither edited nor a description, and that is told at once."""

    def case(tree: Tree) -> str:
        """What is wrong with it."""
        with room_of(tree, FILES) as room:
            made(room)
            before = kinds(room)
            found = [started(room, name, "KSY"), started(room, "FILE", name)]
            is_right = all(status == 1 and name in told and "Traceback" not in told for status, told in found)
            return "" if is_right and kinds(room) == before else f"{found}, {kinds(room)}"

    return case


def read_in(line: str, name: str) -> Case:
    """A line that reads another file tells at once that this is none."""

    def case(tree: Tree) -> str:
        """What is wrong with it."""
        with room_of(tree, FILES) as room:
            made(room)
            with contextlib.closing(Piped(room)) as shell:
                begun = time.monotonic()
                told = shell.ask(f"{line} {name}")
                took, after = time.monotonic() - begun, shell.ask("edits")
            return "" if "no file" in told and took < AT_ONCE and after == "saved: yes" else f"{told!r} in {took:.1f} s, then {after!r}"

    return case


def becomes(name: str, words: Tuple[str, ...], line: str) -> Case:
    """A file in whose place a pipe came meanwhile isn't saved to; the edits stay."""

    def case(tree: Tree) -> str:
        """What is wrong with it."""
        with room_of(tree, {**FILES, "OUT": b"old"}) as room:
            with contextlib.closing(Piped(room, *words)) as shell:
                shell.ask("set 0 ff")
                os.remove(room.path(name))
                os.mkfifo(room.path(name))
                told = shell.ask(line)
                status = shell.end_input() if shell.status is None else shell.status
            is_pipe = stat.S_ISFIFO(os.lstat(room.path(name)).st_mode)
            return "" if is_pipe and status == 3 and "it is a pipe" in told and room.journals() else f"{told!r}, status {status}, {room.journals()}"

    return case


def other_name(first: str, then: str) -> Case:
    """A file that another program changed is asked about, whatever it is called; where it is as it was, it isn't, by any name."""

    def case(tree: Tree) -> str:
        """What is wrong with it."""
        with room_of(tree, FILES) as room:
            made(room)
            then_ = then.replace("ROOM", room.folder)
            with contextlib.closing(Piped(room, first, "KSY")) as shell:
                shell.ask("set 0 ff")
                told = shell.ask(f"save {then_}")
                if not told.startswith("saved "):
                    return f"it is as it was: {told!r}"
            room.write("FILE", SMALL)
            for it in ("LINK", "HARD"):
                os.remove(room.path(it))
            os.symlink("FILE", room.path("LINK"))
            os.link(room.path("FILE"), room.path("HARD"))
            with contextlib.closing(Piped(room, first, "KSY")) as shell:
                shell.ask("set 0 ff")
                room.write("FILE", b"another" + SMALL)
                found = [shell.ask(f"save {then_}"), shell.ask(f"save {then_}"), shell.ask(f"save {then_}")]
            is_right = "isn't as it was" in found[0] and all(it.startswith("saved 100 ") for it in found[1:])
            return "" if is_right else f"it was changed: {found}"

    return case


def led_elsewhere(tree: Tree) -> str:
    """A link that leads to another file by now is asked about."""
    with room_of(tree, {**FILES, "OTHER": b"other"}) as room:
        made(room)
        with contextlib.closing(Piped(room, "LINK", "KSY")) as shell:
            shell.ask("set 0 ff")
            os.remove(room.path("LINK"))
            os.symlink("OTHER", room.path("LINK"))
            found = [shell.ask("save LINK")]
            if room.read("OTHER") != b"other":
                return f"{found}, and the other file has {room.read('OTHER')[:20]!r}"
            found.append(shell.ask("save LINK"))
        is_right = "isn't as it was" in found[0] and found[1].startswith("saved ") and room.read("OTHER") == b"\xff" + SMALL[1:] and room.read("FILE") == SMALL
        return "" if is_right else f"{found}"


def stays(*words: str) -> Case:
    """Without edits, a file that is saved to under another name isn't written anew."""

    def case(tree: Tree) -> str:
        """What is wrong with it."""
        with room_of(tree, FILES) as room:
            made(room)
            before = os.stat(room.path("FILE"))
            with contextlib.closing(Piped(room, *words)) as shell:
                status = shell.end_input()
            after = [os.stat(room.path(it)) for it in ("FILE", "LINK", "HARD")]
            is_right = status == 0 and all((it.st_ino, it.st_mtime_ns, it.st_nlink) == (before.st_ino, before.st_mtime_ns, 2) for it in after)
            return "" if is_right else f"status {status}, {after}"

    return case


NAMES = ("FILE", "./FILE", "LINK", "HARD", "SOME/../FILE", "ROOM/FILE")
CASES: Dict[str, Case] = {
    **{f"more: a save to {name}": saved_to(name, what) for name, what in OTHERS},
    **{f"more: {name} opened": opened(name) for name in ("PIPE", "TO-PIPE", "/dev/null", "/dev/zero", "TO-NULL", "SOME")},
    **{f"more: {line} {name}": read_in(line, name) for line in ("insert 0", "replace /b", "diff") for name in ("PIPE", "/dev/zero", "/dev/null", "TO-PIPE")},
    "more: FILE becomes a pipe": becomes("FILE", (), "save FILE"),
    "more: OUT becomes a pipe": becomes("OUT", ("--save", "OUT", "FILE", "KSY"), "quit"),
    **{f"more: {first}, saved as {then}": other_name(first, then)
       for first in ("FILE", "LINK", "./FILE", "HARD") for then in NAMES if (first == "HARD") <= (then == "HARD")},
    "more: a link that leads elsewhere": led_elsewhere,
    **{f"more: no edits, and {words}": stays(*words.split())
       for words in ("--save LINK FILE KSY", "--save=./FILE LINK KSY", "--save HARD FILE KSY", "--save FILE HARD KSY")},
}
