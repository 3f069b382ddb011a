"""The proved program as a process: a line in, its reply out.

The process is only a cache. Its bytes are those of the copied file after the lines of the edits that hold (`standing`). So it can be ended at any time,
and the next question begins one anew and makes these edits again. A question that is broken off ends the process: so no question is
ever answered by another one's reply.
"""
import os
import select
import signal
import subprocess
from typing import Callable, Iterable, List, Optional, Sequence

from front import memory
from front.copies import Copy
from front.signals import Signals
from front.words import has_reply

NO_MEMORY = "error: no memory"
# How many lines are sent at once where many are, and how much of a reply is read at once.
TOGETHER, PIECE = 256, 1 << 16


class Died(Exception):
    """The program ended while it was asked, or couldn't be begun; why."""


class Refused(Exception):
    """A reply that isn't what was asked for, as `error: no memory`."""


def begun(program: str, words: Sequence[str], copies: Sequence[Copy], **how: object) -> "subprocess.Popen[bytes]":
    """The program as a new process, which may read these copies. It doesn't hear what is typed for the shell, as ctrl-C."""
    limit = memory.limit(os.environ)

    def prepared() -> None:
        """What the new process does before it is the program."""
        signal.signal(signal.SIGINT, signal.SIG_DFL)
        memory.apply(limit)

    try:
        return subprocess.Popen([program, *words], pass_fds=[it.number for it in copies], start_new_session=True, preexec_fn=prepared, **how)
    except (OSError, subprocess.SubprocessError) as error:
        raise Died(f"ksv can't be begun: {error}") from error


def ended(running: "subprocess.Popen[bytes]", message: bytes) -> str:
    """How a process ended, and what it told."""
    status = running.wait()
    told = message.decode(errors="replace").strip()
    how = f"by signal {-status}" if status < 0 else f"with status {status}"
    return f"ksv ended {how}{': ' if told else ''}{told}"


class Process:
    """One process of the program, and what is on its way to it and from it."""

    def __init__(self, program: str, copies: Sequence[Copy], signals: Signals) -> None:
        pipe = subprocess.PIPE
        self.signals = signals
        self.running = begun(program, ["--", *(it.path for it in copies)], copies, stdin=pipe, stdout=pipe, stderr=pipe, bufsize=0)
        for end in (self.running.stdin, self.running.stdout):
            os.set_blocking(end.fileno(), False)
        # what was told since the last line's end
        self.heard: List[bytes] = []

    def exchange(self, lines: Sequence[str], told: Optional[List[str]] = None) -> List[str]:
        """The replies to lines, each of which has one, behind those that are there. The process is of no more use if this is left by an exception; what was
        told until then is kept."""
        rest, replies = memoryview("".join(f"{it}\n" for it in lines).encode(errors="surrogateescape")), [] if told is None else told
        wanted = len(replies) + len(lines)
        self.signals.look()
        rest = rest[self.written(rest) :]
        while len(replies) < wanted:
            readable, writable = self.waited(bool(rest))
            if writable:
                rest = rest[self.written(rest) :]
            if readable and self.read_piece():
                whole = b"".join(self.heard).split(b"\n")
                self.heard = [whole.pop()]
                replies += [it.decode(errors="replace") for it in whole]
        return replies

    def waited(self, is_writing: bool) -> tuple:
        """Whether the process has told something, and whether it takes something, once one of them holds. What a signal asked for is raised."""
        taken = [self.running.stdin] if is_writing else []
        readable, writable, _ = select.select([self.running.stdout, self.signals.wake], taken, [], self.signals.patience)
        if not readable and not writable:
            self.signals.sign()
        if self.signals.wake in readable:
            self.signals.drain()
        self.signals.look()
        return self.running.stdout in readable, bool(writable)

    def written(self, rest: memoryview) -> int:
        """How many bytes the process took. One that has ended takes all: its end is heard from what it told."""
        try:
            return os.write(self.running.stdin.fileno(), rest[:PIECE])
        except BlockingIOError:
            return 0
        except BrokenPipeError:
            return len(rest)

    def read_piece(self) -> bool:
        """Whether something was told that ends a line."""
        try:
            piece = os.read(self.running.stdout.fileno(), PIECE)
        except BlockingIOError:
            return False
        if not piece:
            raise Died(ended(self.running, self.running.stderr.read()))
        self.heard.append(piece)
        return b"\n" in piece

    def end(self) -> None:
        """Ends the process, wherever it is."""
        self.running.kill()
        self.running.wait()
        for pipe in (self.running.stdin, self.running.stdout, self.running.stderr):
            pipe.close()


class Session:
    """The program over copies of a file and its description, after the edits that hold."""

    def __init__(self, program: str, file: Copy, ksy: Copy, standing: Callable[[], Iterable[str]], signals: Signals, tell: Callable[[str], None]) -> None:
        self.program, self.file, self.ksy, self.standing = program, file, ksy, standing
        self.signals, self.tell = signals, tell
        self._process: Optional[Process] = None
        self.asked = 0
        # what was told of the lines that were asked last, also where that was broken off
        self.told: List[str] = []

    def ask(self, line: str) -> str:
        """The reply to a line. Where memory is refused, the same is asked of a process that is begun anew."""
        return self.ask_together([line])[0]

    def ask_together(self, lines: Sequence[str]) -> List[str]:
        """The replies of one process to lines. Where memory is refused, all of them are asked of a process that is begun anew."""
        replies = self.ask_all(lines)
        if NO_MEMORY in replies:
            self.end()
            self.tell("ksv had no memory left, and was begun anew")
            replies = self.ask_all(lines)
        return replies

    def ask_all(self, lines: Sequence[str]) -> List[str]:
        """The replies to lines, each of which must have one. A process that ends meanwhile is begun anew, once, and asked all of them."""
        self.told = []
        for it in lines:
            if "\n" in it or not has_reply(it):
                raise ValueError(f"{it!r} is no line with a reply")
        try:
            return self.tried(lines)
        except Died as error:
            self.tell(f"{error}; it was begun anew")
            return self.tried(lines)

    def tried(self, lines: Sequence[str]) -> List[str]:
        """The replies to lines. Where it is left by an exception, the process is ended, and with it what it was asked."""
        self.asked += len(lines)
        self.told = []
        try:
            process = self.process()
            for at in range(0, len(lines), TOGETHER):
                process.exchange(lines[at : at + TOGETHER], self.told)
            return self.told
        except BaseException:
            self.end()
            raise

    def process(self) -> Process:
        """The process; where there is none, one that is begun anew and makes the edits that hold."""
        if self._process is None:
            self._process = Process(self.program, (self.file, self.ksy), self.signals)
            lines = list(self.standing())
            for at in range(0, len(lines), TOGETHER):
                for line, reply in zip(lines[at:], self._process.exchange(lines[at : at + TOGETHER])):
                    if not reply.startswith("ok "):
                        raise Died(f"ksv can't be begun anew: {line[:60]}: {reply}")
        return self._process

    def end(self) -> None:
        """Ends the process: the next question begins one anew."""
        process, self._process = self._process, None
        if process:
            process.end()

    def size(self) -> int:
        """The number of bytes."""
        return int(self.wanted("size", "size ").split()[1])

    def content(self, start: int, count: int) -> bytes:
        """Some bytes of the file, as the program tells them; fewer where it has no more."""
        count = max(0, min(count, self.size() - start))
        lines = [f"bytes {at} {some}" for at, some in pieces(start, count, MOST_TOLD)]
        found = []
        for at in range(0, len(lines), TOGETHER):
            some = lines[at : at + TOGETHER]
            for line, reply in zip(some, self.ask_all(some)):
                found.append(bytes.fromhex((reply if reply.startswith("hex ") else self.wanted(line, "hex "))[4:]))
        return b"".join(found)

    def wanted(self, line: str, begin: str) -> str:
        """The reply to a line, which must begin so."""
        reply = self.ask(line)
        if not reply.startswith(begin):
            raise Refused(reply)
        return reply


# The most bytes that one line of the program tells.
MOST_TOLD = 4096


def pieces(start: int, count: int, most: int) -> List[tuple]:
    """Places and lengths of pieces of at most n bytes."""
    return [(at, min(most, start + count - at)) for at in range(start, start + count, most)]
