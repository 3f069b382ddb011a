"""A program of which each call to the system is told, and something is done at one of them (calls.c)."""
import contextlib
import os
import subprocess
from collections.abc import Callable
from dataclasses import dataclass
from typing import Optional, TextIO

TOP = os.path.dirname(os.path.dirname(os.path.realpath(__file__)))
KIT = os.path.realpath(os.environ.get("RATTLE_KIT", "/opt/rattle"))
SECONDS = 60


@dataclass(frozen=True)
class Act:
    """What is done (`kill`, `fail` or `wait`) at the call of a number, of those of a name, or of all; 0 for none. Where a call fails, by which error
    of the system. `same`: how many of the random names are the same one."""

    at: int = 0
    do: str = ""
    name: str = ""
    error: int = 0
    same: int = 0

    def words(self) -> dict[str, str]:
        """What calls.c reads of it."""
        said = {"AT": self.at, "DO": self.do, "NAME": self.name, "ERROR": self.error, "SAME": self.same}
        return {f"KSV_{name}": str(value) for name, value in said.items()}


@dataclass(frozen=True)
class User:
    """Another user, as whom a program is run."""

    owner: int
    group: int
    others: tuple[int, ...] = ()

    def words(self) -> dict[str, object]:
        """What `Popen` takes for it."""
        return {"user": self.owner, "group": self.group, "extra_groups": list(self.others)}


@dataclass(frozen=True)
class Ran:
    """How a program ended, what it wrote, and its calls, each a name and what it was for. `place`: how many there were before the one at which
    something was done; None where there was no such call."""

    status: int
    replies: bytes
    message: str
    calls: list[str]
    place: Optional[int]

    def named(self, *names: str) -> list[str]:
        """Its calls of these names, by name."""
        return [it.split()[0] for it in self.calls if it.split()[0] in names]


class Caller:
    """The shared object, and runs of a program into which it is loaded, in a room that every user may enter."""

    def __init__(self, room: str, program: str) -> None:
        os.chmod(room, 0o755)
        self.library, self.program = f"{room}/calls.so", f"{room}/ksv_cli"
        how = ["-shared", "-fPIC", "-nostdlib", "-fuse-ld=lld", "-O1", "-fno-builtin"]
        subprocess.run([f"{KIT}/toolchain/bin/clang", *how, "-o", self.library, f"{TOP}/.ci/calls.c"], check=True)
        with open(program, "rb") as source, open(self.program, "wb") as copy:
            copy.write(source.read())
        for path in (self.library, self.program):
            os.chmod(path, 0o755)

    def run(
        self,
        folder: str,
        words: list[str],
        lines: bytes,
        act: Act,
        meanwhile: Callable[[], None] = lambda: None,
        user: Optional[User] = None,
        before: tuple[str, ...] = (),
    ) -> Ran:
        """Runs it in a folder. Where it waits, `meanwhile` is called before it goes on. `before`: the words of a program that starts it."""
        with contextlib.ExitStack() as stack:
            told, tells = os.pipe()
            waits, goes = os.pipe()
            pipe = stack.enter_context(os.fdopen(told, encoding="utf-8", errors="surrogateescape"))
            stack.callback(os.close, goes)
            keep = {**os.environ, **act.words(), "KSV_TELL": str(tells), "KSV_GO": str(waits)}
            how = {"stdin": subprocess.PIPE, "stdout": subprocess.PIPE, "stderr": subprocess.PIPE, "pass_fds": [tells, waits], **(user.words() if user else {})}
            try:
                started = [*before, "env", f"LD_PRELOAD={self.library}", self.program, *words]
                process = stack.enter_context(subprocess.Popen(started, cwd=folder, env=keep, **how))
            finally:
                os.close(tells)
                os.close(waits)
            with contextlib.suppress(BrokenPipeError):
                process.stdin.write(lines)
                process.stdin.close()
            process.stdin = None
            calls, place = self.followed(pipe, act, meanwhile, goes)
            replies, message = process.communicate(timeout=SECONDS)
        return Ran(process.returncode, replies, message.decode(errors="replace"), calls, place)

    @staticmethod
    def followed(pipe: TextIO, act: Act, meanwhile: Callable[[], None], goes: int) -> tuple[list[str], Optional[int]]:
        """The calls that are told, and how many come before the one at which something is done."""
        calls, met, place = [], 0, None
        for line in pipe:
            calls.append(line.rstrip("\n"))
            met += not act.name or calls[-1].split()[0] == act.name
            if place is None and act.at and met == act.at:
                place = len(calls) - 1
                if act.do == "wait":
                    meanwhile()
                    os.write(goes, b"g")
        return calls, place
