"""Saves at each of whose calls to the system something is done: what they leave of files, owners and modes."""
import os
import shutil
import stat
import tempfile
from collections.abc import Callable, Iterator
from dataclasses import dataclass, replace
from typing import Optional

from calls import Act, Caller, Ran, User

KSY = b"meta: {id: t}\nseq:\n  - {id: a, type: u1}\n"
BEFORE, EDIT, AFTER = b"\x01\x02\x03", b"set 1 ff\napp 04\nquit\n", b"\x01\xff\x03\x04"
REPLIES = b"ok 3\nok 4\nbye\n"
OLD, SECRET = b"as it was, and longer than the file", b"nobody else's"
MODE, PRIVATE = 0o604, 0o600
CANNOT, PERHAPS = "ksv: {}: cannot write\n", "ksv: {}: perhaps not saved\n"
# Errors of the system: not permitted, interrupted, input or output failed, not for this kind of file.
EPERM, EINTR, EIO, EINVAL = 1, 4, 5, 22
# A user who isn't the one that runs the trials, and a group that isn't his.
BOB = (23001, 23002)
# A name that the program makes up where all its bytes are 0.
SAME = ".ksv-save-0000000000000000"
# A trial: its name, and what is wrong with it; None where nothing is.
Result = tuple[str, Optional[str]]


class Room:
    """A folder with a file, its description, a file of another content, links to it and to none, and a file in a folder beside it."""

    def __init__(self, above: str, mode: int = MODE) -> None:
        self.above, self.owner = tempfile.mkdtemp(dir=above), os.getuid()
        os.chmod(self.above, 0o755)
        self.folder, self.secret = f"{self.above}/A B", f"{self.above}/aside/SECRET"
        os.makedirs(f"{self.above}/aside")
        os.makedirs(self.folder)
        self.write(self.secret, SECRET, PRIVATE)
        for name, content in (("FILE", BEFORE), ("KSY", KSY), ("OLD", OLD)):
            self.write(self.at(name), content, mode if name == "OLD" else 0o644)
        for name, to in (("LINK", "OLD"), ("LOST", "MORE"), ("MORE", "NEW")):
            os.symlink(to, self.at(name))

    def at(self, name: str) -> str:
        """The path of a file of the folder."""
        return f"{self.folder}/{name}"

    @staticmethod
    def write(path: str, content: bytes, mode: int) -> None:
        """Makes a file, or one in its place, of this mode."""
        with open(f"{path}.made", "wb") as file:
            file.write(content)
        os.chmod(f"{path}.made", mode)
        os.rename(f"{path}.made", path)

    def made(self) -> list[str]:
        """The files that the program made beside others and left."""
        return [it for it in sorted(os.listdir(self.folder)) if it.startswith(".ksv-save-")]

    def content(self, name: str) -> Optional[bytes]:
        """What is in a file that is there, and no link."""
        path = self.at(name)
        if os.path.islink(path) or not os.path.isfile(path):
            return None
        with open(path, "rb") as file:
            return file.read()

    def rights(self, name: str) -> tuple[int, int, int]:
        """A file's owner, group and mode."""
        found = os.lstat(self.at(name))
        return found.st_uid, found.st_gid, stat.S_IMODE(found.st_mode)

    def is_secret_kept(self) -> bool:
        """Whether the file aside is as it was."""
        found = os.lstat(self.secret)
        with open(self.secret, "rb") as file:
            return (file.read(), found.st_uid, stat.S_IMODE(found.st_mode)) == (SECRET, os.getuid(), PRIVATE)

    def close(self) -> None:
        """Removes it."""
        shutil.rmtree(self.above)


@dataclass(frozen=True)
class Save:
    """A save: to which word, which file that is, what was in it, and what is done. `meanwhile` is called where the program waits."""

    name: str
    out: str = "OLD"
    file: str = "OLD"
    old: Optional[bytes] = OLD
    mode: int = MODE
    act: Act = Act()
    meanwhile: Callable[[Room], None] = lambda room: None
    user: Optional[User] = None
    before: Callable[[Room], tuple[str, ...]] = lambda room: ()
    prepare: Callable[[Room], None] = lambda room: None

    def tried(self, caller: Caller, above: str, wrong: "Wrong") -> tuple[Ran, Optional[str]]:
        """Makes it in a room of its own; what `wrong` says of it."""
        room = Room(above, self.mode)
        try:
            self.prepare(room)
            room.owner = room.rights("OLD")[0]
            words = ["--save", self.out, "FILE", "KSY"]
            ran = caller.run(room.folder, words, EDIT, self.act, lambda: self.meanwhile(room), self.user, self.before(room))
            return ran, wrong(self, room, ran)
        finally:
            room.close()


# What is wrong with what a save left; None where nothing is.
Wrong = Callable[[Save, Room, Ran], Optional[str]]


def others_changed(save: Save, room: Room) -> Optional[str]:
    """What is wrong with the files that no save is for."""
    links = [os.readlink(room.at(name)) for name in ("LINK", "LOST", "MORE")]
    same = room.content("FILE") == BEFORE and room.content("KSY") == KSY and links == ["OLD", "MORE", "NEW"]
    same &= save.file == "OLD" or (room.content("OLD") == OLD and room.rights("OLD")[2] == MODE)
    if not same or not room.is_secret_kept():
        return f"other files: {sorted(os.listdir(room.folder))}"
    return None


def after_kill(save: Save, room: Room, ran: Ran) -> Optional[str]:
    """What is wrong where the program was killed: the file is the old one or the new one."""
    content = room.content(save.file)
    if content not in (save.old, AFTER) or (content and save.old and room.rights(save.file)[2] != save.mode):
        return f"{content!r} after {ran.calls[-1:]}"
    return others_changed(save, room)


def after_failure(save: Save, room: Room, ran: Ran) -> Optional[str]:
    """What is wrong where a call failed: the program's status and message say what is in the file; a device that failed isn't called again."""
    failed = ran.calls[ran.place or 0]
    at = f"{failed!r}: status {ran.status}, {ran.message!r}, {room.content(save.file)!r}, {room.made()}"
    wanted = {
        (0, ""): AFTER,
        (3, CANNOT.format(save.out)): save.old,
        (3, PERHAPS.format(save.out)): AFTER,
        (3, "ksv: input failed\n"): save.old,
        (3, "ksv: output failed\n"): save.old,
        (1, "ksv: FILE: cannot read\n"): save.old,
        (1, "ksv: KSY: cannot read\n"): save.old,
    }
    if wanted.get((ran.status, ran.message), b"?") != room.content(save.file):
        return at
    if failed in ("read 00", "write 01") and (ran.calls.count(failed) != ran.calls[: (ran.place or 0) + 1].count(failed) or ran.status != 3):
        return f"{at}, called again"
    if room.made() and not failed.startswith("unlink"):
        return at
    if save.old and room.content(save.file) and room.rights(save.file)[2] & ~save.mode & 0o77:
        return f"{at}, mode {room.rights(save.file)}"
    return others_changed(save, room)


def after_swap(save: Save, room: Room, ran: Ran) -> Optional[str]:
    """What is wrong where something else came in place of a file: nobody's file is given away, and what is said of the save is true, but for
    what came after its last look."""
    content, looks = room.content(save.file), [at for at, it in enumerate(ran.calls) if it.startswith("statx ")]
    at = f"{ran.calls[ran.place or 0]!r}: status {ran.status}, {ran.message!r}, {content!r}"
    if not room.is_secret_kept():
        return f"{at}, and the file aside is changed"
    if ran.status == 0 and content != AFTER and (ran.place or 0) <= looks[-1]:
        return at
    owner, _, mode = room.rights(save.file)
    if content == AFTER and (mode & ~save.mode & 0o77 or owner not in (room.owner, os.getuid())):
        return f"{at}, mode {mode:o} of {owner}"
    return None


def planted(room: Room, name: str, how: str) -> None:
    """Puts a link to the file aside in place of one of the folder, a second name of it, or another's file that everyone may read."""
    os.remove(room.at(name))
    if how == "link":
        os.symlink(room.secret, room.at(name))
    elif how == "second name":
        os.link(room.secret, room.at(name))
    else:
        room.write(room.at(name), b"planted", 0o666)
        given(room, name)


def given(room: Room, name: str) -> None:
    """Gives a file to another user, where that is allowed."""
    if not os.getuid():
        os.chown(room.at(name), *BOB)


def beside(how: str) -> Callable[[Room], None]:
    """Puts something in place of each file that the program has made beside others."""
    return lambda room: [planted(room, name, how) for name in room.made()] and None


def at_out(how: str) -> Callable[[Room], None]:
    """Puts something in place of the file itself."""
    return lambda room: planted(room, "OLD", how)


def at_each_call(save: Save, caller: Caller, above: str, wrong: Wrong, is_late: bool = False) -> Iterator[Result]:
    """The save with its act at the first call, or the first of the session, the second, and so on, until there is none."""
    plain, _ = replace(save, act=Act()).tried(caller, above, lambda *_: None)
    number = first = plain.calls.index("read 00") if is_late else 0
    while True:
        number += 1
        ran, why = replace(save, act=replace(save.act, at=number)).tried(caller, above, wrong)
        if ran.place is None:
            break
        yield f"{save.name}: call {number}", why
    yield save.name, None if number - first > 10 else f"only {number - first - 1} calls were met"


def by_call(caller: Caller, above: str) -> list[Callable[[], list[Result]]]:
    """The trials that are made at each call."""
    kill, wait = Act(do="kill"), Act(do="wait")
    outs = [("a file", "OLD", "OLD", OLD), ("no file", "NEW", "NEW", None), ("a link", "LINK", "OLD", OLD), ("links to no file", "LOST", "NEW", None)]
    found = [(Save(f"killed, over {name}", *words, act=kill), after_kill, False) for name, *words in outs]
    for word, error in (("fails", EIO), ("is not permitted", EPERM), ("is interrupted", EINTR)):
        found += [(Save(f"a call {word}, over {name}", *words, act=Act(do="fail", error=error)), after_failure, False) for name, *words in outs]
    for how in ("link", "second name", "file"):
        new = Save(f"a {how} in place of the new file", mode=0o666, act=wait, meanwhile=beside(how), prepare=lambda room: given(room, "OLD"))
        out = Save(f"a {how} in place of OUT", mode=PRIVATE, act=wait, meanwhile=at_out(how))
        found += [(new, after_swap, False), (out, after_swap, True)]
    return [lambda save=save, wrong=wrong, is_late=is_late: list(at_each_call(save, caller, above, wrong, is_late)) for save, wrong, is_late in found]
