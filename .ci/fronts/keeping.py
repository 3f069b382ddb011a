"""front/journal and front/save: journals that are cut, system calls that fail in turn, locks, limits; each outcome of the process that saves."""
import contextlib
import errno
import fcntl
import os
import signal
import tempfile
import threading
import time
from typing import Callable, Dict, Iterator, List, Tuple
from unittest import mock

from fronts.room import PLACE
from front import journal, save
from front.copies import Copy
from front.edits import Edit, Edits
from front.journal import Journal, NoJournal
from front.signals import Signals

Check = Callable[[], str]
ORIGIN = bytes(range(256)) + b"\n00000000 {}\n" * 3
# The calls of a journal that may fail.
CALLS = ("makedirs", "open", "pwrite", "fsync", "rename", "close")


@contextlib.contextmanager
def home() -> Iterator[str]:
    """A folder for journals alone, and a file."""
    with tempfile.TemporaryDirectory(dir=PLACE) as folder, mock.patch.dict(os.environ, XDG_STATE_HOME=f"{folder}/state"):
        with open(f"{folder}/FILE", "wb") as file:
            file.write(ORIGIN)
        yield folder


def steps() -> List[Tuple[dict, Edits]]:
    """Some records, and the edits after each."""
    found, edits = [], Edits()
    for number in range(1, 9):
        edit = Edit(f"set {number} \u00e4\udcff\n", (f"set {number} 00", f"ins {number} {'00' * number}"))
        edits = edits.made(edit)
        found.append((journal.made(edit, number), edits))
        if number % 3 == 0:
            edits = edits.taken_back()
            found.append(({"step": "undo"}, edits))
            if number % 2 == 0:
                edits = edits.again()
                found.append(({"step": "redo"}, edits))
        if number == 5:
            begun = journal.saving(ORIGIN, "/nowhere", edits.version)
            found.append((begun, edits))
            edits = edits.marked_saved(edits.version)
            found.append((journal.saved(begun), edits))
    return found


def written(file: str) -> Tuple[str, List[int]]:
    """A journal with all records, whose session ended, and its length after each."""
    own = Journal.begun(file, ORIGIN)
    lengths = [os.path.getsize(own.path)]
    for event, _ in steps():
        own.note(event)
        lengths.append(os.path.getsize(own.path))
    own.close(is_kept=True)
    return own.path, lengths


def told(edits: Edits) -> tuple:
    """All of some edits that a journal keeps."""
    undone, at = [], edits.undone
    while at:
        undone, at = [*undone, (at.edit.line, at.edit.effect, at.version)], at.before
    return [(it.edit.line, it.edit.effect, it.version) for it in edits.holding()], undone, edits.saved


def cuts() -> str:
    """A journal that is cut at any byte has all records that are whole; where its head or the file's bytes are cut, it is told to be broken."""
    with home() as folder:
        path, lengths = written(f"{folder}/FILE")
        with open(path, "rb") as file:
            whole = file.read()
        states = [Edits(), *(it for _, it in steps())]
        for length in range(len(whole) + 1):
            os.truncate(path, length)
            count = sum(it <= length for it in lengths)
            try:
                own, held = Journal.taken_up(journal.Left(path, "", 0, False, 0.0))
                own.close(is_kept=True)
                is_right = count > 0 and told(held.edits) == told(states[count - 1]) and held.origin == ORIGIN and os.path.getsize(path) == lengths[count - 1]
            except NoJournal:
                is_right = count == 0
            if not is_right:
                return f"cut to {length} of {len(whole)} bytes"
            with open(path, "wb") as file:
                file.write(whole)
    return ""


def flips() -> str:
    """A journal of which any byte is changed has the records before it, or is told to be broken."""
    with home() as folder:
        path, lengths = written(f"{folder}/FILE")
        with open(path, "rb") as file:
            whole = file.read()
        states = [Edits(), *(it for _, it in steps())]
        for at in range(len(whole)):
            with open(path, "wb") as file:
                file.write(whole[:at] + bytes([whole[at] ^ 1]) + whole[at + 1 :])
            number = os.open(path, os.O_RDONLY)
            try:
                held, count = journal.parsed(number, path), sum(it <= at for it in lengths)
                if not count or told(held.edits) != told(states[count - 1]):
                    return f"the byte {at} is another one"
            except NoJournal:
                if at >= lengths[0]:
                    return f"the byte {at} is another one, and all is lost"
            finally:
                os.close(number)
    return ""


def later() -> str:
    """A journal that begins after some steps has the same edits as one that had each of them, also those that were taken back."""
    with home() as folder:
        for count, (_, edits) in enumerate(steps(), 1):
            own = Journal.begun(f"{folder}/FILE", ORIGIN)
            for event in journal.events_of(edits):
                own.note(event)
            number = os.open(own.path, os.O_RDONLY)
            held = journal.parsed(number, own.path)
            os.close(number)
            own.close(is_kept=False)
            if told(held.edits) != told(edits):
                return f"after {count} steps: {told(held.edits)}, and not {told(edits)}"
    return ""


def no_step() -> str:
    """A record that takes back or makes again what isn't there is where a journal is broken: what was before it is there."""
    with home() as folder:
        first, edits = steps()[0]
        for records in ((), ({"step": "undo"},)):
            own = Journal.begun(f"{folder}/FILE", ORIGIN)
            for event in (first, *records, {"step": "undo" if records else "redo"}, steps()[1][0]):
                own.note(event)
            own.close(is_kept=True)
            again, held = Journal.taken_up(journal.Left(own.path, "", 0, False, 0.0))
            again.close(is_kept=False)
            if told(held.edits) != told(edits.taken_back() if records else edits):
                return f"{records}: {told(held.edits)}"
    return ""


class Failing:
    """The module os, one call of which fails, or writes a part first."""

    def __init__(self, name: str, number: int, is_short: bool, also: str = "") -> None:
        self.name, self.left, self.is_short, self.also = name, number, is_short, also
        self.is_met = False

    def __getattr__(self, name: str) -> object:
        real = getattr(os, name)
        if name == self.also:
            return self.refuse
        return (lambda *words, **more: self.call(real, *words, **more)) if name == self.name else real

    def call(self, real: Callable[..., object], *words: object, **more: object) -> object:
        """A call that fails if its turn has come."""
        self.left -= 1
        if self.left:
            return real(*words, **more)
        self.is_met = True
        if self.is_short:
            real(words[0], words[1][: len(words[1]) // 2], words[2])
        if self.name == "close":
            real(*words)
        return self.refuse()

    @staticmethod
    def refuse(*_: object) -> object:
        """A call that fails."""
        raise OSError(errno.ENOSPC, os.strerror(errno.ENOSPC))


def failing_once(name: str, is_short: bool, also: str = "") -> Check:
    """A system call of a journal fails, each in turn: what was noted before is there, and all of it with the next record."""

    def check() -> str:
        """What is wrong with it."""
        for number in range(1, 40):
            with home() as folder:
                failing = Failing(name, number, is_short, also)
                wrong = with_failing(f"{folder}/FILE", failing)
                if wrong:
                    return f"call {number}: {wrong}"
                if not failing.is_met:
                    return "" if number > 1 else "it is never called"
        return "it doesn't end"

    return check


def with_failing(file: str, failing: Failing) -> str:
    """Notes all records while a call fails; what is wrong."""
    with mock.patch.object(journal, "os", failing):
        try:
            own = Journal.begun(file, ORIGIN)
        except OSError:
            left = [it for it in os.listdir(journal.folder())]
            return "" if not left else f"there is {left}"
        last = Edits()
        for event, after in steps():
            with contextlib.suppress(OSError):
                own.note(event)
                last = after
            number = os.open(own.path, os.O_RDONLY)
            held = journal.parsed(number, own.path)
            os.close(number)
            if told(held.edits) != told(last):
                return f"after {event} there are {told(held.edits)}"
        with contextlib.suppress(OSError):
            own.close(is_kept=True)
    return ""


def locks() -> str:
    """A journal whose session goes on is told to be open, and can't be taken up; after that it can, once."""
    with home() as folder:
        own = Journal.begun(f"{folder}/FILE", ORIGIN)
        own.note(steps()[0][0])
        [left] = journal.found(f"{folder}/FILE")
        try:
            Journal.taken_up(left)
            return "it is taken up twice"
        except OSError as error:
            if error.errno != errno.EWOULDBLOCK or not left.is_open:
                return f"{error}, {left}"
        own.close(is_kept=True)
        [left] = journal.found(f"{folder}/FILE")
        again, held = Journal.taken_up(left)
        again.note(steps()[1][0])
        [other] = journal.found(f"{folder}/FILE")
        again.close(is_kept=False)
        is_right = not left.is_open and other.is_open and (left.count, other.count, held.origin) == (1, 2, ORIGIN) and not journal.found(f"{folder}/FILE")
        return "" if is_right else f"{left}, {other}"


def kept() -> str:
    """Of a file's journals as many are kept as are told, the newest ones; saved ones go; those of sessions that go on stay, and those of other files."""
    with home() as folder:
        open_ones = [Journal.begun(f"{folder}/FILE", ORIGIN) for _ in range(3)]
        for own in open_ones[:2]:
            own.note(steps()[0][0])
        paths = []
        for number in range(12):
            own = Journal.begun(f"{folder}/FILE", ORIGIN)
            own.note(steps()[0][0])
            own.close(is_kept=True)
            os.utime(own.path, (number, number))
            paths.append(own.path)
        for name, records in (("OTHER", 1), ("FILE", 0)):
            own = Journal.begun(f"{folder}/{name}", ORIGIN)
            for event, _ in steps()[:records]:
                own.note(event)
            own.close(is_kept=True)
        found = journal.found(f"{folder}/FILE")
        left = {it for it in paths if os.path.exists(it)}
        is_right = left == set(paths[-journal.KEPT :]) and len(found) == journal.KEPT + 2 and all(os.path.exists(it.path) for it in open_ones)
        is_right = is_right and len(os.listdir(journal.folder())) == journal.KEPT + 4 and found[-1].time == 4 and found[-1].count == 1
        for own in open_ones:
            own.close(is_kept=False)
        return "" if is_right else f"{len(left)} are left, {len(found)} found"


# Records of saves, what the file has, and whether its edits are saved and it is as the session left it: `b` begins a save of the bytes NEW to the file and
# `s` tells that it went well, `B` and `S` of the bytes OTHER, `o` and `p` are the two of a save of NEW to another file, and `e` is one more edit.
NEW, OTHER = b"new bytes", b"other bytes"
SAVES: List[Tuple[str, bytes, bool, bool]] = [
    ("", ORIGIN, False, True), ("", NEW, False, False), ("b", ORIGIN, False, True), ("b", NEW, True, True), ("b", OTHER, False, False), ("bs", NEW, True, True),
    ("bs", ORIGIN, True, False), ("bse", NEW, False, True), ("be", NEW, False, True), ("be", ORIGIN, False, True), ("bseB", NEW, False, True),
    ("bseB", OTHER, True, True), ("bseBS", OTHER, True, True), ("bseBS", NEW, True, False), ("bseBe", OTHER, False, True), ("o", ORIGIN, False, True), ("o", NEW, False, False),
    ("op", ORIGIN, True, True), ("op", NEW, True, False), ("bsop", NEW, True, True), ("bseo", NEW, False, True), ("bo", NEW, True, True), ("ob", NEW, True, True),
]


def own_saves() -> str:
    """A save is known for the session's own, also where it isn't told to have gone well, and no other change of the file is."""
    for records, content, is_saved, is_own in SAVES:
        with home() as folder:
            file, version = f"{folder}/FILE", 1
            own = Journal.begun(file, ORIGIN)
            own.note(journal.made(Edit("set 0 00", ("set 0 00",)), version))
            begun = {"b": journal.saving(NEW, file, 0), "B": journal.saving(OTHER, file, 0), "o": journal.saving(NEW, f"{folder}/OTHER", 0)}
            for it in records:
                version += it == "e"
                event = {**begun[{"s": "b", "S": "B", "p": "o"}.get(it, it)], "saving": version} if it != "e" else journal.made(Edit("app 00", ("app 00",)), version)
                own.note(journal.saved(event) if it in "sSp" else event)
            own.close(is_kept=True)
            with open(file, "wb") as there:
                there.write(content)
            left = journal.left_of(own.path)
            again, held = Journal.taken_up(left)
            again.close(is_kept=True)
            found = left.is_saved, left.sum == journal.sum_at(file), held.edits.is_saved(), held.sum == left.sum
            if found != (is_saved, is_own, is_saved, True):
                return f"{records}, and the file has {content[:20]!r}: {found}"
    return ""


def on_disk() -> str:
    """Each record is on the disk once it is noted, and so is the journal's name."""
    calls: List[str] = []

    def counted(number: int) -> None:
        """A call that is noted."""
        calls.append(os.readlink(f"/proc/self/fd/{number}"))
        os.fsync(number)

    with home() as folder, mock.patch.object(journal, "os", Watched(counted)):
        own = Journal.begun(f"{folder}/FILE", ORIGIN)
        begun, calls[:] = list(calls), []
        for number, (event, _) in enumerate(steps(), 1):
            own.note(event)
            if calls != [own.path] * number:
                return f"record {number}: {calls}"
        own.close(is_kept=True)
        return "" if begun == [f"{own.path}.new", os.path.dirname(own.path)] else f"{begun}"


class Watched:
    """The module os, whose `fsync` is another one."""

    def __init__(self, fsync: Callable[[int], None]) -> None:
        self.fsync = fsync

    def __getattr__(self, name: str) -> object:
        return getattr(os, name)


def modes() -> str:
    """A journal and its folder are the person's own, whatever the mask."""
    before = os.umask(0)
    try:
        with home() as folder:
            own = Journal.begun(f"{folder}/FILE", ORIGIN)
            found = [os.stat(it).st_mode & 0o777 for it in (own.path, journal.folder())]
            is_locked = False
            with open(own.path, "rb") as file:
                try:
                    fcntl.flock(file, fcntl.LOCK_SH | fcntl.LOCK_NB)
                except BlockingIOError:
                    is_locked = True
            own.close(is_kept=False)
            return "" if found == [0o600, 0o700] and is_locked else f"{[oct(it) for it in found]}, locked {is_locked}"
    finally:
        os.umask(before)


def no_folder() -> str:
    """Where no folder can be made, that is an error of the system, and nothing else."""
    with home() as folder:
        for state in (f"{folder}/FILE", "/dev/null", "/proc/none"):
            with mock.patch.dict(os.environ, XDG_STATE_HOME=state):
                with contextlib.suppress(OSError):
                    Journal.begun(f"{folder}/FILE", ORIGIN)
                    return f"{state}: a journal is there"
    return ""


# What a process does that saves, as a script with the new bytes in $new and the file in $out, and what must be told: nothing where it is saved.
OUTCOMES: List[Tuple[str, str, str, bytes]] = [
    ("it saves", 'cat "$new" > "$out"', "", b"new"),
    ("it saves nothing", "true", "written by another program at the same time", b"old"),
    ("it saves others", 'printf other > "$out"', "written by another program at the same time", b"other"),
    ("it refuses", "echo 'ksv: OUT: cannot write' >&2; exit 3", "ksv: OUT: cannot write", b"old"),
    ("it refuses without a word", "exit 3", "", b"old"),
    ("it is killed before", "kill -9 $$", "ended by signal 9 while it saved: OUT has its old bytes", b"old"),
    ("it is killed after", 'cat "$new" > "$out"; kill -9 $$', "", b"new"),
    ("it hangs", "exec sleep 60", "ended by signal 9 while it saved: OUT has its old bytes", b"old"),
    ("it hangs after", 'cat "$new" > "$out"; exec sleep 60', "", b"new"),
    ("it tells much", "head -c 300000 /dev/zero | tr '\\0' x >&2; exit 1", "xxxxx", b"old"),
]


def outcome(script: str, wanted: str, left: bytes) -> Check:
    """What is told of a process that saves and does this."""

    def check() -> str:
        """What is wrong with it."""
        with home() as folder, Copy(b"ksy") as ksy, Signals() as signals, mock.patch.object(save, "PATIENCE", 0.3):
            with open(f"{folder}/ksv", "w", encoding="utf-8") as file:
                file.write(f'#!/bin/sh\nout=${{1#--save=}}; new=$3\n{script}\n')
            os.chmod(f"{folder}/ksv", 0o755)
            with open(f"{folder}/OUT", "wb") as file:
                file.write(b"old")
            os.chdir(folder)
            saver, told_, begun = save.Saver(f"{folder}/ksv", ksy, signals), "", time.monotonic()
            if "sleep" in script:
                threading.Timer(0.3, lambda: os.kill(os.getpid(), signal.SIGINT)).start()
            try:
                saver.save(b"new", "OUT")
            except save.NotSaved as error:
                told_ = str(error)
            finally:
                os.chdir("/")
            with open(f"{folder}/OUT", "rb") as file:
                now = file.read()
            is_right = now == left and wanted in told_ and (bool(told_) == (left != b"new")) and time.monotonic() - begun < 10
            return "" if is_right else f"{told_[:200]!r}, OUT {now[:20]!r}"

    return check


def no_program() -> str:
    """A process that can't be begun saves nothing."""
    with home() as folder, Copy(b"ksy") as ksy, Signals() as signals:
        try:
            save.Saver(f"{folder}/none", ksy, signals).save(b"new", f"{folder}/FILE")
            return "it is saved"
        except save.NotSaved as error:
            return "" if "can't be begun" in str(error) else str(error)


def looked() -> str:
    """A file that isn't as it was known is asked for once, and each time that it is another one."""
    with home() as folder, Copy(b"ksy") as ksy, Signals() as signals:
        path, saver = f"{folder}/FILE", save.Saver("/bin/true", ksy, signals)

        def asked() -> str:
            """What is asked of the file."""
            try:
                saver.check(path)
                return ""
            except save.NotSaved as error:
                return str(error)

        found = [asked()]
        saver.know(path, save.look_of(path))
        found.append(asked())
        for content in (b"other", b"and again"):
            with open(path, "wb") as file:
                file.write(content)
            found += [asked(), asked()]
        os.remove(path)
        found += [asked(), asked()]
        saver.know(path, None)
        found.append(asked())
        with open(path, "wb") as file:
            file.write(b"new")
        found += [asked(), asked()]
        wanted = ["", "", "isn't as it was", "", "isn't as it was", "", "is gone", "", "", "is there by now", ""]
        return "" if all(bool(own) == bool(it) and it in own for own, it in zip(found, wanted)) else f"{found}"


CHECKS: Dict[str, Check] = {
    "a journal that is cut": cuts,
    "a journal with another byte": flips,
    **{f"a journal whose {name} fails": failing_once(name, False) for name in CALLS},
    "a journal whose pwrite writes a part": failing_once("pwrite", True),
    "a journal whose pwrite writes a part, which can't be taken away": failing_once("pwrite", True, "ftruncate"),
    "a journal that begins later": later,
    "a journal with a step of nothing": no_step,
    "locks of journals": locks,
    "how many journals are kept": kept,
    "modes of journals": modes,
    "own saves": own_saves,
    "a journal on the disk": on_disk,
    "no folder for journals": no_folder,
    **{f"a process that saves: {name}": outcome(script, wanted, left) for name, script, wanted, left in OUTCOMES},
    "a process that can't be begun": no_program,
    "files that were changed": looked,
}
