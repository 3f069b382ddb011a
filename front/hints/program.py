"""The program, run for a person at a terminal: a greeting once it reads command lines, a hint below a refusal, and at the end what was saved.

What the program prints and its status stay as they are, whatever fails here. The hint of a description is made in a process of its own, which has a limit of
time and memory; where that ends otherwise than well, there is none. Where command lines are typed and replies are shown on a terminal, the replies pass
through here, and below one that refuses a line is what would be right. The command lines don't: what ends the input ends it for the program.
"""
from __future__ import annotations

import os
import resource
import select
import signal
import subprocess
import sys
from typing import List, NoReturn, Optional, Sequence

from front.hints import arguments, refusal
from front.hints.replies import Replies
from front.hints.shown import visible

# Seconds between two looks at the program before it is greeted; how much of its message is read; the seconds of work and the bytes of memory that a hint may
# take, the seconds that it is waited for, and how long it may be.
TURN, MESSAGE, SECONDS, MEMORY, PATIENCE, LONGEST = 0.03, 65_536, 1, 1 << 30, 5, 16_384


class Program:
    """The program while it runs, and then the process that makes a hint; a request to end goes to the one that is there."""

    def __init__(self, words: Sequence[str]) -> None:
        """Starts the program; ctrl-C, which goes to it too, is its own to answer."""
        self.words, self.hinting = list(words), 0
        for name in (signal.SIGINT, signal.SIGQUIT):
            if signal.getsignal(name) != signal.SIG_IGN:
                signal.signal(name, self._stop_hint)
        self.replies = Replies(size_of((arguments.read(words[1:]).plain or [None])[0])) if os.isatty(0) and os.isatty(1) else None
        self.running = subprocess.Popen(self.words, stdout=subprocess.PIPE if self.replies else None, stderr=subprocess.PIPE)
        signal.signal(signal.SIGTERM, self._stop)

    def _stop(self, *_: object) -> None:
        """Asks the program to end, or ends the process that makes a hint."""
        self.running.terminate()
        self._stop_hint()

    def _stop_hint(self, *_: object) -> None:
        """Ends the process that makes a hint, where there is one."""
        if self.hinting:
            os.kill(self.hinting, signal.SIGTERM)

    def run(self) -> int:
        """Waits for the program, whose messages and replies go on at once; its status."""
        is_greeted, waited, message = not os.isatty(0), 0, b""
        streams = [it for it in (self.running.stdout, self.running.stderr) if it]
        while streams:
            ready = select.select(streams, [], [], None if is_greeted else TURN)[0]
            if not ready:
                waited = waited + 1 if is_waiting(self.running.pid) else 0
                is_greeted = waited == 2
                told(greeting(self.words[1:]) if is_greeted else "")
            for stream in ready:
                piece = os.read(stream.fileno(), MESSAGE)
                if not piece or stream is self.running.stdout and not self.passed(piece):
                    streams.remove(stream)
                    stream.close()
                elif stream is self.running.stderr:
                    written(piece)
                    message = (message + piece)[:MESSAGE]
        status = self.running.wait()
        if status == 1:
            written(self.hint(message.decode(errors="surrogateescape")))
        elif status == 0:
            told(saved(self.words[1:]))
        return status

    def passed(self, piece: bytes) -> bool:
        """Whether replies were taken by the terminal; what is said below them is told after each."""
        for part, said in self.replies.take(piece):
            if not written(part, 1):
                return False
            told(f"  ({said})\n" if said else "")
        return True

    def hint(self, message: str) -> bytes:
        """What a process of its own says of a message; nothing where it doesn't end well."""
        try:
            ours, theirs = os.pipe()
            self.hinting = os.fork()
        except OSError:
            return b""
        if not self.hinting:
            hinted(message, self.words[1:], theirs)
        os.close(theirs)
        text = b""
        while len(text) <= LONGEST and (piece := os.read(ours, LONGEST)):
            text += piece
        os.close(ours)
        status = os.waitpid(self.hinting, 0)[1]
        self.hinting = 0
        return b"" if status else text


def hinted(message: str, words: Sequence[str], to: int) -> NoReturn:
    """Writes the hint and ends the process, which any signal may end and whose errors nobody sees."""
    try:
        for name in (signal.SIGINT, signal.SIGQUIT, signal.SIGTERM):
            signal.signal(name, signal.SIG_DFL)
        os.dup2(os.open(os.devnull, os.O_WRONLY), 2)
        resource.setrlimit(resource.RLIMIT_CORE, (0, 0))
        resource.setrlimit(resource.RLIMIT_CPU, (SECONDS, SECONDS))
        resource.setrlimit(resource.RLIMIT_AS, (MEMORY, MEMORY))
        signal.alarm(PATIENCE)
        os.write(to, refusal.hint(message, words).encode(errors="replace"))
        os._exit(0)
    finally:
        os._exit(1)


def is_waiting(process: int) -> bool:
    """Whether a process waits, as for its input."""
    try:
        with open(f"/proc/{process}/stat", encoding="utf-8", errors="replace") as file:
            return file.read().rpartition(")")[2].split()[0] == "S"
    except (OSError, IndexError):
        return False


def size_of(name: Optional[str]) -> Optional[int]:
    """The size of a file; None where there is none, or it is no plain one."""
    try:
        return os.path.getsize(name) if name and os.path.isfile(name) else None
    except (OSError, ValueError):
        return None


def greeting(words: Sequence[str]) -> str:
    """What is told once, when the program reads command lines."""
    name = (arguments.read(words).plain or ["FILE"])[0]
    size = size_of(name)
    return f"ksv:{'' if size is None else f' {visible(name)}, {size} bytes;'} type command lines (--help lists them)\n"


def saved(words: Sequence[str]) -> str:
    """What is told after a session that saved."""
    out = arguments.read(words).out
    size = size_of(out)
    return "" if size is None else f"ksv: saved {size} bytes to {visible(out or '')}\n"


def told(text: str) -> None:
    """Tells a text on standard error."""
    written(text.encode(errors="replace"))


def written(text: bytes, to: int = 2) -> bool:
    """Writes to standard error, or where else is said; whether all was taken."""
    try:
        while text:
            text = text[os.write(to, text) :]
    except OSError:
        return False
    return True


def main(words: List[str]) -> int:
    """Runs the program of these words; its status, or its end by a signal, is this one's."""
    status = Program(words).run()
    if status < 0:
        if -status != signal.SIGKILL:
            signal.signal(-status, signal.SIG_DFL)
        os.kill(os.getpid(), -status)
    return status


if __name__ == "__main__":
    sys.exit(main(sys.argv[1:]))
