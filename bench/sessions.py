"""Sessions of the program, and what they cost: instructions, seconds of a processor, peak memory. Each reply is compared with the one that must come."""
import os
import re
import resource
import subprocess
import tempfile
import threading
import time
from concurrent.futures import ThreadPoolExecutor
from dataclasses import dataclass

# Instructions are the same however many sessions run side by side; two leave a shared machine some room.
LANES = max(1, (os.cpu_count() or 1) // 2)
VALGRIND = ["valgrind", "--tool=cachegrind", "--cache-sim=no", "--cachegrind-out-file=/dev/null"]
# What a session may take, in seconds of a processor.
SECONDS = 900


class Wrong(Exception):
    """A reply, a message or a status that isn't the one that must come."""


def text(*rows):
    """The rows of a text, each with its end."""
    return "".join(f"{row}\n" for row in rows).encode()


@dataclass(frozen=True)
class Session:
    """A description, a file, and lines, each with the reply that must come."""

    ksy: bytes
    data: bytes
    dialogue: tuple = ()

    def then(self, *more):
        """The same session with more lines at its end."""
        return Session(self.ksy, self.data, (*self.dialogue, *more))

    def put(self, folder):
        """Writes the file and the description into a folder; their names."""
        for name, content in (("file", self.data), ("ksy", self.ksy)):
            with open(f"{folder}/{name}", "wb") as file:
                file.write(content)
        return [f"{folder}/file", f"{folder}/ksy"]


def lines(dialogue):
    """The lines of a dialogue, as they are sent."""
    return text(*(line for line, _ in dialogue))


def shortened(words):
    """The beginning of a long text."""
    return words if len(words) <= 80 else f"{words[:80]}.."


def compare(dialogue, replies, is_spoiled):
    """Fails where replies aren't those of the dialogue. A spoiled comparison wants another last reply."""
    wanted = [reply for _, reply in dialogue]
    if is_spoiled and wanted:
        wanted[-1] += " and not this"
    found = replies.decode(errors="replace").split("\n")[:-1]
    for (line, _), want, has in zip(dialogue, wanted, found):
        if want != has:
            raise Wrong(f"{shortened(line)!r}: wanted {shortened(want)!r}, found {shortened(has)!r}")
    if len(found) != len(wanted):
        raise Wrong(f"{len(wanted)} replies wanted, {len(found)} found")


class Program:
    """The program that is measured. One that is spoiled wants another reply than the one that must come where something is measured."""

    def __init__(self, path, is_spoiled=False):
        self.path, self.is_spoiled, self.counted = path, is_spoiled, {}

    def count(self, session, is_spoiled=False):
        """The instructions of a whole session."""
        with tempfile.TemporaryDirectory(prefix="ksv-bench-") as folder:
            words = [*VALGRIND, f"--log-file={folder}/log", self.path, *session.put(folder)]
            ran = subprocess.run(words, input=lines(session.dialogue), stdout=subprocess.PIPE, stderr=subprocess.PIPE, timeout=SECONDS, check=False)
            if ran.returncode:
                raise Wrong(f"status {ran.returncode}: {shortened(ran.stderr.decode(errors='replace'))!r}")
            compare(session.dialogue, ran.stdout, is_spoiled)
            with open(f"{folder}/log", encoding="utf-8") as log:
                return int(re.search(r"I +refs: +([\d,]+)", log.read())[1].replace(",", ""))

    def more(self, pairs):
        """How many instructions the second session of each pair takes beyond those of the first."""
        bases = {base for base, _ in pairs}
        new = list(dict.fromkeys(it for pair in pairs for it in pair if it not in self.counted))
        with ThreadPoolExecutor(LANES) as pool:
            self.counted.update(zip(new, pool.map(lambda it: self.count(it, self.is_spoiled and it not in bases), new)))
        return [self.counted[session] - self.counted[base] for base, session in pairs]

    def talk(self, session):
        """A session that goes on beside the script: its own lines are answered already."""
        return Talk(self, session)


class Talk:
    """A session that goes on beside the script, so that lines can be timed alone, and memory looked at in between. Loading and start-up are over when it
    begins."""

    def __init__(self, program, session):
        self.program, self.folder = program, tempfile.TemporaryDirectory(prefix="ksv-bench-")
        words = [program.path, *session.put(self.folder.name)]
        self.process = subprocess.Popen(words, stdin=subprocess.PIPE, stdout=subprocess.PIPE, bufsize=0)
        resource.prlimit(self.process.pid, resource.RLIMIT_CPU, (SECONDS, SECONDS))
        self.exchange([("size", f"size {len(session.data)}")], False)
        if session.dialogue:
            self.exchange(session.dialogue, False)

    def __enter__(self):
        return self

    def __exit__(self, kind, *_):
        """Ends the session, which must end as one does that `quit` ends."""
        if kind:
            self.process.kill()
        self.process.stdin.close()
        status, rest = self.process.wait(), self.process.stdout.read()
        self.process.stdout.close()
        self.folder.cleanup()
        if not kind and (status or rest):
            raise Wrong(f"status {status}, and {shortened(rest)!r} at the end")

    def clock(self):
        """The seconds of a processor that the process has taken: its clock of the kernel, whose number is made of the process's, in nanoseconds."""
        return time.clock_gettime(~self.process.pid << 3 | 2)

    def peak(self):
        """The most memory that the process has had, in bytes. What `wait` tells of a child may be the memory of the script that began it."""
        with open(f"/proc/{self.process.pid}/status", encoding="utf-8") as file:
            return int(re.search(r"VmHWM:\s*(\d+) kB", file.read())[1]) * 1024

    def ask(self, *dialogue):
        """The seconds of a processor that some lines take."""
        return self.exchange(dialogue, self.program.is_spoiled)

    def exchange(self, dialogue, is_spoiled):
        """Sends lines and reads their replies beside that. Of many replies some are read at once: to wake a reader is no work of the program."""
        begun = self.clock()
        writer = threading.Thread(target=self.send, args=(lines(dialogue),))
        writer.start()
        replies, count = [], 0
        while count < len(dialogue):
            if len(dialogue) > 1:
                time.sleep(0.001)
            piece = os.read(self.process.stdout.fileno(), 1 << 16)
            if not piece:
                raise Wrong(f"the session ends behind {count} of {len(dialogue)} replies")
            replies.append(piece)
            count += piece.count(b"\n")
        took = self.clock() - begun
        writer.join()
        compare(dialogue, b"".join(replies), is_spoiled)
        return took

    def send(self, sent):
        """Sends lines. Where the program has ended, the reader says so."""
        try:
            while sent:
                sent = sent[os.write(self.process.stdin.fileno(), sent) :]
        except BrokenPipeError:
            pass
