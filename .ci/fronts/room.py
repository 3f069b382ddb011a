"""A copy of the tree whose program is a proxy, and the shell in it, through pipes or on a terminal."""
import contextlib
import fcntl
import mmap
import os
import pty
import re
import select
import shutil
import signal
import struct
import subprocess
import tempfile
import termios
import time
from typing import Dict, Iterator, List, Optional, Sequence, Tuple

TOP = os.path.dirname(os.path.dirname(os.path.dirname(os.path.realpath(__file__))))
HERE = os.path.dirname(os.path.realpath(__file__))
REAL = f"{TOP}/crates/ksv_cli/out/ksv_cli"
# What a plan does at its event: a number below 64 is a signal to the shell; the others are those of proxy.c.
DIED, HALF, NO_MEMORY, TWICE = 100, 101, 102, 103
# How long a reply is waited for, in seconds.
PATIENCE = 60.0
# How long after the first signal of two the second one is waited for, in seconds.
SECOND = 2.0
# Where rooms are: in memory, if that can be.
PLACE = "/dev/shm" if os.access("/dev/shm", os.W_OK) else None


class Silent(Exception):
    """The shell told nothing in time."""


class Tree:
    """A copy of what the prompt needs, with the proxy for the program or without, and perhaps with bin/ of another commit."""

    def __init__(self, folder: str, commit: Optional[str] = None, is_proxied: bool = True) -> None:
        self.folder = folder
        for name in ("bin", "front"):
            shutil.copytree(f"{TOP}/{name}", f"{folder}/{name}", ignore=shutil.ignore_patterns("__pycache__"))
        for name in ("ksv", "ksv-shell", "hints.py") if commit else ():
            found = subprocess.run(["git", "-C", TOP, "show", f"{commit}:bin/{name}"], stdout=subprocess.PIPE, check=True).stdout
            with open(f"{folder}/bin/{name}", "wb") as file:
                file.write(found)
            os.chmod(f"{folder}/bin/{name}", 0o755)
        os.makedirs(f"{folder}/crates/ksv_cli/out")
        shutil.copy(f"{TOP}/crates.txt", folder)
        program = f"{folder}/crates/ksv_cli/out/ksv_cli"
        if is_proxied:
            subprocess.run(["cc", "-O2", "-o", program, f"{HERE}/proxy.c"], check=True)
        else:
            shutil.copy(REAL, program)
        os.utime(program)

    @property
    def shell(self) -> str:
        """The path of the shell."""
        return f"{self.folder}/bin/ksv-shell"


class Control:
    """The proxy's control file, shared with all processes of one shell."""

    def __init__(self, path: str) -> None:
        with open(path, "wb") as file:
            file.write(bytes(4096))
        with open(path, "r+b") as file:
            self.map = mmap.mmap(file.fileno(), 4096)

    def arm(self, plans: Sequence[Tuple[int, int, int]] = ()) -> None:
        """Counts events from now on; each plan has the number of its event, what is done, and how long after it."""
        self.map[:4] = bytes(4)
        fields = [it for plan in plans for it in plan]
        self.map[4:] = struct.pack(f"=6I{len(fields)}I", 0, 0, 0, self.begun, 0, len(plans), *fields).ljust(4092, b"\0")
        self.map[:4] = struct.pack("=I", 1)

    def disarm(self) -> Tuple[int, int]:
        """How many events there were, and how many plans were met."""
        self.map[:4] = bytes(4)
        count, fired = struct.unpack("=2I", self.map[4:12])
        return count, fired

    def fired(self) -> int:
        """How many plans were met until now."""
        return struct.unpack("=I", self.map[8:12])[0]

    def wait_for_second(self) -> None:
        """Waits until the second signal of a plan was sent. A proxy that was ended by then sends none."""
        until = time.monotonic() + SECOND
        while not any(self.map[20:24]) and time.monotonic() < until:
            time.sleep(0.001)

    def want_dump(self) -> None:
        """Lets the proxy write all bytes of the program before the next line."""
        self.map[12:16] = struct.pack("=I", 1)

    @property
    def begun(self) -> int:
        """How many processes were begun."""
        return struct.unpack("=I", self.map[16:20])[0]


class Room:
    """A folder with a file, its description and a control file, and the environment of a shell in it."""

    def __init__(self, tree: Tree, folder: str, files: Dict[str, bytes]) -> None:
        self.tree, self.folder = tree, folder
        for name, content in files.items():
            self.write(name, content)
        os.makedirs(f"{folder}/home", exist_ok=True)
        self.control = Control(f"{folder}/control")
        self.environ = {**os.environ, "XDG_STATE_HOME": f"{folder}/home", "KSV_CONTROL": f"{folder}/control", "KSV_DUMP": f"{folder}/dump", "KSV_REAL": REAL,
                        "PYTHONDONTWRITEBYTECODE": "1", "HOME": f"{folder}/home"}

    def path(self, name: str) -> str:
        """The path of a file in the folder."""
        return f"{self.folder}/{name}"

    def write(self, name: str, content: bytes) -> None:
        """Writes a file."""
        with open(self.path(name), "wb") as file:
            file.write(content)

    def read(self, name: str) -> Optional[bytes]:
        """The bytes of a file; None where there is none."""
        try:
            with open(self.path(name), "rb") as file:
                return file.read()
        except FileNotFoundError:
            return None

    def dump(self) -> bytes:
        """The bytes that the program told the proxy."""
        return bytes.fromhex((self.read("dump") or b"").decode())

    def journals(self) -> List[str]:
        """The names of the journals that are there."""
        folder = f"{self.folder}/home/ksv"
        return sorted(it for it in (os.listdir(folder) if os.path.isdir(folder) else []) if it.endswith(".journal"))


@contextlib.contextmanager
def room_of(tree: Tree, files: Dict[str, bytes]) -> Iterator[Room]:
    """A room that goes at the end."""
    with tempfile.TemporaryDirectory(prefix="ksv-front-room-", dir=PLACE) as folder:
        yield Room(tree, folder, files)


def settled(room: Room) -> None:
    """Waits until no process of the program has the room's control file any more."""
    until = time.monotonic() + PATIENCE
    while time.monotonic() < until and any(room.folder in it for it in maps()):
        time.sleep(0.02)


def maps() -> List[str]:
    """The control files that processes other than this one have."""
    found = []
    for number in filter(str.isdigit, os.listdir("/proc")):
        if int(number) != os.getpid():
            with contextlib.suppress(OSError), open(f"/proc/{number}/maps", encoding="utf-8", errors="replace") as file:
                found += re.findall(r"/\S*/control\b", file.read())
    return found


def children_of(pid: int) -> List[int]:
    """The children of a process that run."""
    with open(f"/proc/{pid}/task/{pid}/children", encoding="utf-8") as file:
        return [int(it) for it in file.read().split()]


def memory_of(pid: int) -> int:
    """The most memory that a process had, in bytes."""
    with open(f"/proc/{pid}/status", encoding="utf-8") as status:
        return int(re.search(r"VmHWM:\s*(\d+)", status.read())[1]) * 1024


def times_of(pid: int) -> float:
    """The processor time of a process, and of its children, those too that have ended, in seconds."""
    found = 0.0
    for it in (pid, *children_of(pid)):
        with open(f"/proc/{it}/stat", encoding="utf-8") as file:
            fields = file.read().rpartition(")")[2].split()
        found += sum(map(int, fields[11 : 15 if it == pid else 13])) / os.sysconf("SC_CLK_TCK")
    return found


class Shell:
    """A shell that runs: lines are typed, and what is told below each is read."""

    is_terminal = False

    def __init__(self, room: Room) -> None:
        self.room, self.marks, self.status = room, 0, None  # type: Room, int, Optional[int]

    def mark(self) -> str:
        """A line that no command is, so that its reply shows where the one before it ends."""
        self.marks += 1
        return f"mark{self.marks}"


class Piped(Shell):
    """A shell that reads lines from a pipe."""

    def __init__(self, room: Room, *words: str, **environ: str) -> None:
        super().__init__(room)
        pipe = subprocess.PIPE
        self.errors = open(room.path("errors"), "ab")
        self.begin_errors = self.errors.tell()
        self.running = subprocess.Popen([room.tree.shell, *(words or ("FILE", "KSY"))], cwd=room.folder, env={**room.environ, **environ}, stdin=pipe, stdout=pipe,
                                        stderr=self.errors, start_new_session=True)
        self.pid, self.heard = self.running.pid, bytearray()
        self.greeting = self.ask("")

    def ask(self, line: str) -> str:
        """What is told below a line; where the shell ends meanwhile, its status is known after that."""
        mark = self.mark()
        end = f"{mark}: no such command; `help` lists them\n".encode()
        try:
            self.running.stdin.write(f"{line}\n{mark}\n".encode(errors="surrogateescape"))
            self.running.stdin.flush()
        except BrokenPipeError:
            pass
        until = time.monotonic() + PATIENCE
        while not self.heard.endswith(end):
            if not select.select([self.running.stdout], [], [], max(0.0, until - time.monotonic()))[0]:
                raise Silent(f"{line[:60]}: nothing told in {PATIENCE} s, but {self.heard[-100:]!r}")
            piece = os.read(self.running.stdout.fileno(), 1 << 18)
            if not piece:
                self.status = self.running.wait()
                break
            self.heard += piece
        told, self.heard = bytes(self.heard.removesuffix(end)), bytearray()
        return told.decode(errors="replace").removesuffix("\n")

    def told_aside(self) -> str:
        """What came on standard error so far."""
        with open(self.room.path("errors"), "rb") as file:
            file.seek(self.begin_errors)
            return file.read().decode(errors="replace")

    def end_input(self) -> int:
        """Ends the input; the status of the shell."""
        self.running.stdin.close()
        self.running.stdout.read()
        self.status = self.running.wait(PATIENCE)
        return self.status

    def close(self) -> None:
        """Ends the shell, if it still runs."""
        self.running.kill()
        self.running.wait()
        with contextlib.suppress(BrokenPipeError):
            self.running.stdin.close()
        self.running.stdout.close()
        self.errors.close()


class Terminal(Shell):
    """A shell on a terminal of its own, so wide and high that nothing is cut but long lines."""

    is_terminal = True
    PROMPT = re.compile(rb"ksv /\S*> $")

    def __init__(self, room: Room, *words: str, **environ: str) -> None:
        super().__init__(room)
        room.write("inputrc", b"set enable-bracketed-paste off\n")
        env = {**room.environ, "TERM": "dumb", "INPUTRC": room.path("inputrc"), "LC_ALL": "C.UTF-8", "COLUMNS": "2000", "LINES": "5000", **environ}
        self.pid, self.ours = pty.fork()
        if not self.pid:
            os.chdir(room.folder)
            os.execve(room.tree.shell, [room.tree.shell, *(words or ("FILE", "KSY"))], env)
        fcntl.ioctl(self.ours, termios.TIOCSWINSZ, struct.pack("HHHH", 5000, 2000, 0, 0))
        self.greeting = self.until(self.PROMPT)

    def until(self, end: "re.Pattern[bytes]", seconds: float = PATIENCE) -> str:
        """What is shown until it ends so, or the shell has ended."""
        shown, stop = b"", time.monotonic() + seconds
        while not end.search(shown[-200:]):
            if not select.select([self.ours], [], [], max(0.0, stop - time.monotonic()))[0]:
                raise Silent(f"nothing shown in {seconds} s, but {shown[-200:]!r}")
            try:
                piece = os.read(self.ours, 1 << 16)
            except OSError:
                piece = b""
            if not piece:
                self.status = os.waitstatus_to_exitcode(os.waitpid(self.pid, 0)[1]) if self.status is None else self.status
                break
            shown += piece
        return shown.decode(errors="replace").replace("\r\n", "\n")

    def ask(self, line: str) -> str:
        """What is shown below a line, without the prompts."""
        return self.typed(line, self.PROMPT).rstrip("\n")

    def synced(self) -> None:
        """Types lines until one has its own reply: after that a signal that was sent before has done what it does."""
        for _ in range(60):
            mark = self.mark()
            with contextlib.suppress(Silent):
                os.write(self.ours, f"{mark}\n".encode())
                self.until(re.compile(rb"%b: no such command; `help` lists them\r\nksv /\S*> $" % mark.encode()), 1.0)
                return
        raise Silent("no line has its own reply")

    def typed(self, line: str, end: "re.Pattern[bytes]") -> str:
        """What is shown below a line, up to an end."""
        os.write(self.ours, f"{line}\n".encode(errors="surrogateescape"))
        shown = self.until(end)
        shown = shown[shown.find("\n") + 1 :]
        return re.sub(r"(?m)^ksv /\S*> ", "", shown)

    def close(self) -> None:
        """Ends the shell, if it still runs."""
        if self.status is None:
            os.kill(self.pid, signal.SIGKILL)
            os.waitpid(self.pid, 0)
            self.status = -signal.SIGKILL
        os.close(self.ours)
