"""The command `ksv-mend`: the program is asked, and what comes of a description is printed and written."""
from __future__ import annotations

import contextlib
import os
import signal
import stat
import subprocess
from typing import List, NamedTuple, Optional, Sequence

from front.hints import refusal
from front.hints.refusal import MAX_LENGTH, Refusal
from front.hints.shown import visible
from front.mend.library import Library
from front.mend.loop import Mended, mend

USAGE = "usage: ksv-mend KSY [-o NEW] [-I DIR].."
HELP = f"""{USAGE}

Changes what ksv doesn't read of the description KSY, as far as that needs no person, and prints each change with its reason and what is lost.
The text that comes out is written to NEW, as a whole; without -o nothing is written. DIR is a folder below which imported files are looked for,
besides that of KSY. Status 0: it loads; 1: a person is needed, or a file can't be read or written; 2: usage.
"""
# How long the program may take for an answer, in seconds, and how many names are tried for a new file.
PATIENCE, NAMES = 60, 100


class Words(NamedTuple):
    """The words of the command."""

    ksy: str
    out: Optional[str]
    folders: List[str]


class Failed(Exception):
    """What can't be done, as it is told."""


def words_of(words: Sequence[str]) -> Optional[Words]:
    """The words, as they are meant; None where they are mistaken."""
    plain, folders, out, rest = [], [], None, list(words)
    while rest:
        word = rest.pop(0)
        if word == "--":
            plain, rest = plain + rest, []
        elif word in ("-o", "-I") and rest:
            if word == "-o" and out is not None:
                return None
            out, folders = (rest.pop(0), folders) if word == "-o" else (out, [*folders, rest.pop(0)])
        elif word.startswith("-") and word != "-":
            return None
        else:
            plain.append(word)
    return Words(plain[0], out, folders) if len(plain) == 1 else None


class Program:
    """The proved program, which is asked whether it reads a description."""

    def __init__(self, built: str) -> None:
        """The program, which bin/ksv builds."""
        self._built = built

    def ask(self, text: str) -> Optional[Refusal]:
        """The refusal of a description; None where it loads."""
        if not os.access(self._built, os.X_OK):
            raise Failed("the program isn't built: bin/ksv builds it")
        number = os.memfd_create("ksy")
        try:
            with open(number, "wb", closefd=False) as file:
                file.write(text.encode())
            words = [self._built, os.devnull, f"/proc/self/fd/{number}"]
            how = {"stdin": subprocess.DEVNULL, "stdout": subprocess.DEVNULL, "stderr": subprocess.PIPE}
            ran = subprocess.run(words, **how, pass_fds=[number], timeout=PATIENCE, check=False)
        except (OSError, subprocess.TimeoutExpired) as error:
            raise Failed(f"the program can't be asked: {error}") from error
        finally:
            os.close(number)
        message = ran.stderr.decode(errors="replace")
        found = refusal.read(message)
        if ran.returncode and found is None:
            raise Failed(f"the program can't be asked: {message.strip()}")
        return found if ran.returncode else None


def read(name: str) -> str:
    """The text of a description."""
    try:
        with open(name, "rb") as file:
            content = file.read(MAX_LENGTH + 1)
    except (OSError, ValueError) as error:
        raise Failed(f"{visible(name)}: cannot read") from error
    try:
        return content.decode()
    except UnicodeDecodeError as error:
        line = content.count(b"\n", 0, error.start) + 1
        raise Failed(f"{visible(name)}: line {line}: Y1 not UTF-8") from error


def write(name: str, text: str) -> None:
    """Writes a file as a whole: a new one in its folder takes its name once it is on the disk."""
    try:
        path = os.path.realpath(name)
        mode = os.stat(path).st_mode if os.path.exists(path) else None
        if mode is not None and not stat.S_ISREG(mode):
            raise OSError
        number, new = made(path)
        try:
            with open(number, "wb") as file:
                if mode is not None:
                    os.fchmod(number, stat.S_IMODE(mode))
                file.write(text.encode())
                file.flush()
                os.fsync(number)
            os.rename(new, path)
        except BaseException:
            os.unlink(new)
            raise
        folder = os.open(os.path.dirname(path), os.O_RDONLY | os.O_DIRECTORY)
        try:
            os.fsync(folder)
        finally:
            os.close(folder)
    except (OSError, ValueError) as error:
        raise Failed(f"{visible(name)}: cannot write") from error


def made(path: str) -> tuple:
    """A new file in the folder of a path: its number and its name."""
    for count in range(NAMES):
        new = os.path.join(os.path.dirname(path), f".ksv-mend-{count}")
        try:
            return os.open(new, os.O_WRONLY | os.O_CREAT | os.O_EXCL | os.O_CLOEXEC, 0o666), new
        except FileExistsError:
            continue
    raise OSError


def report(name: str, mended: Mended) -> str:
    """What is printed of a description."""
    found = [f"--- {visible(name)}\n+++ {visible(name)}\n"] if mended.steps else []
    for it in mended.steps:
        found.append(f"= {it.reason}\n{it.diff}" + "".join(f"lost: {visible(one, 300)}\n" for one in it.losses))
    count = len(mended.steps)
    changes = "nothing is changed" if not count else f"{count} change{'' if count == 1 else 's'}"
    if mended.refusal is None:
        return "".join(found) + f"ksv-mend: {visible(name)} loads: {changes}\n"
    told = mended.refusal
    refused = f"line {told.line}: {told.code} {visible(told.text)}"
    return "".join(found) + f"ksv-mend: {visible(name)}: {changes}, and a person is needed: {refused}\n" + (f"      = {visible(mended.why, 2000)}\n" if mended.why else "")


def occupied() -> None:
    """Opens nothing as standard input, output and error where they are closed: no other file may have their numbers."""
    number = 0
    while number <= 2:
        number = os.open(os.devnull, os.O_RDWR)
    os.close(number)


def tell(text: str, to: int = 1) -> None:
    """Writes a text to standard output, or to standard error, in UTF-8 as the program does."""
    content = text.encode()
    try:
        while content:
            content = content[os.write(to, content) :]
    except BrokenPipeError:
        raise
    except OSError as error:
        raise Failed("output failed") from error


def run(words: Words, top: str) -> int:
    """Mends a description; the status."""
    text = read(words.ksy)
    folder = os.path.dirname(os.path.realpath(words.ksy))
    program = Program(f"{top}/crates/ksv_cli/out/ksv_cli")
    mended = mend(text, program.ask, Library(folder, words.folders))
    if words.out is not None:
        write(words.out, mended.text)
    tell(report(words.ksy, mended))
    return 0 if mended.refusal is None else 1


def main(given: List[str], top: str) -> int:
    """Runs the command of these words; its status."""
    occupied()
    status, message = 1, ""
    try:
        if given in (["--help"], ["-h"]):
            tell(HELP)
            return 0
        words = words_of(given)
        if words is not None:
            return run(words, top)
        status, message = 2, f"{USAGE}\n"
    except Failed as failed:
        message = f"ksv-mend: {failed}\n"
    except BrokenPipeError:
        pass
    except KeyboardInterrupt:
        signal.signal(signal.SIGINT, signal.SIG_DFL)
        os.kill(os.getpid(), signal.SIGINT)
    with contextlib.suppress(OSError, Failed):
        tell(message, 2)
    return status
