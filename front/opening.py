"""A file and its description, opened: what the prompt and the view begin with, and how they leave."""
import os
import re
import signal
import subprocess
import sys
from typing import Callable, List, Optional, Tuple

from front import journal
from front.copies import Copy, kind_of, read
from front.description import Description
from front.edits import edits_of
from front.keeper import Keeper, lefts
from front.output import Output, OutputFailed
from front.parent import ends_with_parent
from front.save import Saver, barrier, look_of
from front.session import Died, Refused, Session
from front.signals import Signals
from front.texts import visible

TOP = os.path.dirname(os.path.dirname(os.path.realpath(__file__)))
PROGRAM = f"{TOP}/crates/ksv_cli/out/ksv_cli"
# How many seconds a launcher that was interrupted has to end what it began.
PATIENCE = 5
# The largest description that ksv reads, and one byte more.
LONGEST_TEXT = (1 << 20) + 1


def words_of(words: List[str]) -> Optional[Tuple[str, str, Optional[str]]]:
    """The file, the description and where to save; None where the words are others."""
    plain, out, rest = [], None, list(words)
    while rest:
        word = rest.pop(0)
        if word == "--":
            plain, rest = plain + rest, []
        elif word == "--save" and rest:
            out = rest.pop(0)
        elif word.startswith("--save="):
            out = word[len("--save=") :]
        elif word.startswith("--"):
            return None
        else:
            plain.append(word)
    return (plain[0], plain[1], out) if len(plain) == 2 and out != "" else None


def unusable(file: str, ksy: str, out: Optional[str]) -> Optional[Tuple[int, str]]:
    """The status and message of names that can't be used, as far as the program doesn't see it itself; None where there is nothing. What can be read only
    once, as a pipe, would be empty when it is read again."""
    for name in (file, ksy):
        if "\0" in name or kind_of(name) not in ("", "a folder"):
            return 1, f"{name}: only a file can be edited, and described by one"
    if out is not None:
        what = "a file's name has no byte 0" if "\0" in out else barrier(out)
        return (3, f"{out}: cannot write: {what}") if what else None
    return None


def looked_at(shell: str, named: Tuple[str, str, Optional[str]]) -> int:
    """The status that is left with where the names can't be used, after it is told; 0 where they can. The launcher builds the program where it isn't, and
    tells what it can't use."""
    why = unusable(*named)
    if why:
        told(f"{shell}: {why[1]}")
        return why[0]
    return ended([f"{TOP}/bin/ksv", "--", *named[:2]])


def ended(words: List[str]) -> int:
    """The status of the launcher. Where it builds, it ends its proofs and takes its folder away when it is interrupted, so it is waited for; one that wasn't
    interrupted itself is ended then. It ends with this process too."""
    with subprocess.Popen(words, stdin=subprocess.DEVNULL, preexec_fn=ends_with_parent(signal.SIGTERM)) as process:  # pylint: disable=subprocess-popen-preexec-fn
        while True:
            try:
                return process.wait()
            except KeyboardInterrupt:
                give_up(process)


def give_up(process: "subprocess.Popen[bytes]") -> None:
    """Waits for a launcher that was interrupted, as by ctrl-C on its terminal, and ends one that wasn't."""
    try:
        process.wait(PATIENCE)
    except subprocess.TimeoutExpired:
        process.terminate()
    except KeyboardInterrupt:
        process.terminate()


def told(message: str) -> None:
    """Tells a message on standard error, if somebody hears it."""
    try:
        print(visible(message), file=sys.stderr, flush=True)
    except OSError:
        pass


def helped(shell: str, text: str) -> int:
    """Tells what is asked for by `--help`; the status."""
    try:
        Output(sys.stdout, False).write(f"{text}\n")
    except OutputFailed as error:
        told(f"{shell}: output failed: {error}")
        return 3
    return 0


def open_streams() -> None:
    """Opens those standard streams that are closed, so that no other file has their numbers: nothing comes from them, and what is told there fails or goes."""
    for name, path, mode in (("stdin", os.devnull, "r"), ("stdout", "/dev/full", "w"), ("stderr", os.devnull, "w")):
        if getattr(sys, name) is None:
            opened = open(path, mode, encoding="utf-8")  # pylint: disable=consider-using-with
            os.set_inheritable(opened.fileno(), True)
            setattr(sys, name, opened)


def greetings(keeper: Keeper, how: str) -> List[str]:
    """What other sessions over the file left, and how it is taken up."""
    lines = []
    for left in lefts(keeper.file):
        aside = "" if left.sum == journal.sum_of(keeper.origin) else ", and the file was changed since"
        if left.is_open:
            lines.append(f"another session over this file has {edits_of(left.count)}, not saved")
        else:
            lines.append(f"a session that ended at {journal.when(left.time)} left {edits_of(left.count)}, not saved{aside}: {how}")
    return lines


class Opened:
    """Copies of a file and its description, with who keeps the edits and who saves. The description may be read again."""

    def __init__(self, named: Tuple[str, str, Optional[str]], signals: Signals, tell: Callable[[str], None]) -> None:
        self.file, self.ksy, self.out = named
        self.signals, self.tell = signals, tell
        look, look_out = look_of(self.file), look_of(self.out) if self.out else None
        origin, self.text = read(self.file), read(self.ksy)
        self._description: Optional[Description] = None
        self.copy = Copy(self.text)
        self.keeper = Keeper(self.file, origin, self.session, tell)
        self.saver = Saver(PROGRAM, self.copy, signals)
        self.saver.begins = self.keeper.begins_save
        if self.out:
            self.saver.know(self.out, look_out)
        self.saver.know(self.file, look)

    def session(self, keeper: Keeper, copy: Copy) -> Session:
        """A session over a copy of the file, after the keeper's edits."""
        return Session(PROGRAM, copy, self.copy, lambda: keeper.edits.lines(), self.signals, self.tell)

    def description(self) -> Description:
        """What the description's text has, which is read once."""
        if self._description is None:
            self._description = Description(self.text.decode(errors="replace"))
        return self._description

    def reload(self) -> str:
        """Reads the description again; the file's bytes and the edits stay. What the program tells of its size. Where it is refused, `Died` tells why, `Refused`
        where memory is, and all is as it was."""
        text = read(self.ksy, LONGEST_TEXT)
        before = (self.copy, self.keeper.session)
        self.copy = Copy(text)
        try:
            found = self.session(self.keeper, self.keeper.copy)
            try:
                size = found.tried(["size"])[0]
                if not size.startswith("size "):
                    found.end()
                    raise Refused(size)
            except Died as error:
                raise Died(re.sub(r"^.*?ksv: /proc/self/fd/[0-9]+: ", f"{self.ksy}: ", str(error))) from error
        except BaseException:
            self.copy.close()
            self.copy = before[0]
            raise
        before[1].end()
        before[0].close()
        self.keeper.session, self.saver.ksy, self.text, self._description = found, self.copy, text, None
        return size

    def close(self) -> None:
        """Gives the description's copy back."""
        self.copy.close()

    def __enter__(self) -> "Opened":
        return self

    def __exit__(self, *_: object) -> None:
        self.close()
