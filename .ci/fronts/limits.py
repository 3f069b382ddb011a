"""Cases of time and memory: searches, lists that break at their first element, explanations, saves, and what limits the program."""
import contextlib
import os
import random
import re
import signal
import subprocess
import threading
import time
from dataclasses import dataclass
from typing import Callable, Dict, List, Optional

from fronts.model import KSY
from fronts.room import Piped, Terminal, Tree, memory_of, room_of, times_of

Case = Callable[[Tree], str]
MEBI = 1 << 20


@dataclass(frozen=True)
class Cost:
    """What a session took: seconds of its processors, the most memory of one of its processes in bytes, and its status."""

    seconds: float
    memory: int
    status: int


def cost(tree: Tree, files: Dict[str, bytes], lines: List[str], program: str = "bin/ksv-shell", out: str = os.devnull, **environ: str) -> Cost:
    """What a session through pipes takes, of the shell and all processes that it waited for."""
    with room_of(tree, files) as room, open(out, "wb") as sink:
        room.write("lines", "".join(f"{it}\n" for it in lines).encode())
        with open(room.path("lines"), "rb") as typed:
            env = {**room.environ, **environ}
            running = subprocess.Popen([f"{tree.folder}/{program}", "FILE", "KSY"], cwd=room.folder, env=env, stdin=typed, stdout=sink, stderr=subprocess.DEVNULL, start_new_session=True)
            timer = threading.Timer(100, lambda: os.killpg(running.pid, signal.SIGKILL))
            timer.start()
            _, status, used = os.wait4(running.pid, 0)
            timer.cancel()
            running.returncode = os.waitstatus_to_exitcode(status)
        return Cost(used.ru_utime + used.ru_stime, used.ru_maxrss * 1024, running.returncode)


def finds_many(tree: Tree) -> str:
    """`find 00` over 1 MiB of zeros takes little memory."""
    own = cost(tree, {"FILE": bytes(MEBI), "KSY": KSY}, ["find 00"])
    if own.memory > 150 * MEBI or own.status:
        return f"{own.memory // MEBI} MiB over 1 MiB, status {own.status}"
    return ""


def finds_first(tree: Tree) -> str:
    """`find 00` over 16 MiB of zeros takes little memory."""
    with room_of(tree, {"FILE": bytes(16 * MEBI), "KSY": KSY}) as room:
        running = subprocess.Popen([tree.shell, "FILE", "KSY"], cwd=room.folder, env=room.environ, stdin=subprocess.PIPE, stdout=subprocess.PIPE, stderr=subprocess.DEVNULL)
        running.stdin.write(b"find 00\n")
        running.stdin.flush()
        told = running.stdout.readline()
        used = memory_of(running.pid)
        running.kill()
        running.communicate()
        return "" if told == b"at 0 1  (0x0)\n" and used < 150 * MEBI else f"{used // MEBI} MiB, {told!r}"


def finds_at_terminal(tree: Tree) -> str:
    """`find 00` over 16 MiB of zeros at a terminal takes little memory, and ends soon."""
    with room_of(tree, {"FILE": bytes(16 * MEBI), "KSY": KSY}) as room, contextlib.closing(Terminal(room)) as shell:
        shell.ask("size")
        begun, before = times_of(shell.pid), memory_of(shell.pid)
        told = shell.ask("find 00")
        took, used = times_of(shell.pid) - begun, memory_of(shell.pid) - before
        is_right = told.startswith("at 0 1  (0x0)\n") and "more than 100000 more" in told and took < 3 and used < 100 * MEBI
        return "" if is_right else f"{took:.1f} s, {used // MEBI} MiB, {told[-100:]!r}"


def many_types(count: int) -> bytes:
    """A description with twice as many types, each with one of its own, and faults in them."""
    rows = ["meta: {id: t, endian: le}", "seq: [{id: a, type: t0}]", "types:"]
    for number in range(count):
        rows += [f"  t{number}:", "    seq:", "      - {id: b, type: u1}", "      - {id: c, type: u1, valid: {max: 0}}", "    instances:",
                 "      d: {value: 1 / (b - b)}", "      e: {value: b + 1}", "    types:", f"      n{number}: {{seq: [{{id: f, type: u1}}]}}"]
    return ("\n".join(rows) + "\n").encode()


def explains(tree: Tree) -> str:
    """An explanation of a fault at 1,000 types takes under a second."""
    files = {"FILE": bytes([1, 2, 3]), "KSY": many_types(500)}
    before, own = cost(tree, files, ["get /a/b"]), cost(tree, files, ["get /a/b", "get /a/c", "get /a/d"])
    used = own.seconds - before.seconds
    with room_of(tree, files) as room, contextlib.closing(Piped(room)) as shell:
        told = shell.ask("get /a/d")
    return "" if used < 1 and "1 / (b - b)" in told else f"{used:.2f} s, {told!r}"


def saves_fast(tree: Tree) -> str:
    """A save of 16 MiB with 1,000 edits takes no more than two seconds, the fastest of three, by the clock or, where other work runs, of processors."""
    source = random.Random(5)
    edits = [f"set {source.randrange(1 << 24)} 00" if count % 3 else f"ins {source.randrange(1 << 24)} 0102" for count in range(1000)]
    with room_of(tree, {"FILE": source.randbytes((1 << 24) - 5000), "KSY": KSY}) as room, contextlib.closing(Piped(room)) as shell:
        shell.running.stdin.write("".join(f"{it}\n" for it in edits).encode())
        shell.running.stdin.flush()
        for _ in edits:
            shell.running.stdout.readline()
        found = []
        for count in range(3):
            begun, used = time.monotonic(), times_of(shell.pid)
            told = shell.ask(f"save OUT{count}")
            found.append((min(time.monotonic() - begun, times_of(shell.pid) - used), told[:6]))
    return "" if min(found)[0] <= 2 and all(it == "saved " for _, it in found) else f"{found}, {told[:80]!r}"


def limit_of(pid: int) -> Optional[int]:
    """How much address space a process may have; None where it has no limit."""
    with open(f"/proc/{pid}/limits", encoding="utf-8") as file:
        found = re.search(r"Max address space\s+(\S+)", file.read())[1]
    return None if found == "unlimited" else int(found)


def limited(program: str, setting: str, least: int, most: int) -> Case:
    """The process of the program may have no more memory than a setting tells; without one, than three quarters of what is free."""

    def case(tree: Tree) -> str:
        """What is wrong with it."""
        with room_of(tree, {"FILE": b"abc", "KSY": KSY}) as room:
            room.write("real", b"#!/bin/sh\nwhile read -r line; do echo size 3; done\n")
            os.chmod(room.path("real"), 0o755)
            env = {**room.environ, "KSV_REAL": room.path("real"), "KSV_MEMORY": setting}
            with open(room.path("errors"), "wb") as errors:
                running = subprocess.Popen([f"{tree.folder}/{program}", "FILE", "KSY"], cwd=room.folder, env=env, stdin=subprocess.PIPE, stdout=subprocess.PIPE, stderr=errors)
            try:
                running.stdin.write(b"raw size\n")
                running.stdin.flush()
                if running.stdout.readline() != b"size 3\n":
                    return "no reply"
                own = limit_of(process_of(running.pid))
            finally:
                running.kill()
                running.communicate()
        return "" if own is not None and least <= own <= most else f"{own} bytes"

    return case


def process_of(pid: int) -> int:
    """The process of the program: the child of a shell, or what the launcher became."""
    with open(f"/proc/{pid}/comm", encoding="utf-8") as file:
        if file.read().strip() == "ksv_cli":
            return pid
    with open(f"/proc/{pid}/task/{pid}/children", encoding="utf-8") as file:
        return int(file.read().split()[0])


def available() -> int:
    """How much memory is free, in bytes."""
    with open("/proc/meminfo", encoding="utf-8") as file:
        return int(re.search(r"MemAvailable: *(\d+) kB", file.read())[1]) * 1024


def hinted(size: int, line: bytes, seconds: float, memory: int) -> Case:
    """The launcher tells at a terminal why a description is refused, and takes little for it."""

    def case(tree: Tree) -> str:
        """What is wrong with it."""
        with room_of(tree, {"FILE": b"abc", "KSY": line}) as room:
            os.truncate(room.path("KSY"), size)
            ours, theirs = os.openpty()
            running = subprocess.Popen([f"{tree.folder}/bin/ksv", "FILE", "KSY"], cwd=room.folder, env=room.environ, stdin=subprocess.DEVNULL, stdout=subprocess.DEVNULL, stderr=theirs,
                                       start_new_session=True)
            os.close(theirs)
            timer = threading.Timer(60, lambda: os.killpg(running.pid, signal.SIGKILL))
            timer.start()
            told = b""
            with contextlib.suppress(OSError):
                while piece := os.read(ours, 1 << 16):
                    told += piece[: 1000 - len(told)]
            _, status, used = os.wait4(running.pid, 0)
            timer.cancel()
            running.returncode = os.waitstatus_to_exitcode(status)
            os.close(ours)
        took, most = used.ru_utime + used.ru_stime, used.ru_maxrss * 1024
        is_right = running.returncode == 1 and b"KSY: " in told and took <= seconds and most <= memory
        return "" if is_right else f"{took:.1f} s, {most // MEBI} MiB, status {running.returncode}, {told[:100]!r}"

    return case


# Cases that need the program itself, and those over a proxy.
DIRECT: Dict[str, Case] = {
    "6: find over 1 MiB of zeros": finds_many,
    "6: find over 16 MiB of zeros": finds_first,
    "6: find over 16 MiB of zeros at a terminal": finds_at_terminal,
    "6: an explanation at 1,000 types": explains,
    "more: hints of a line of 1,000,000 question marks": hinted(1_000_000, b"?" * 1_000_000, 3, 250 * MEBI),
    "8: hints of a description of 1 GiB": hinted(1 << 30, b"a: b\n", 3, 250 * MEBI),
    "more: a save of 16 MiB with 1,000 edits": saves_fast,
}
CASES: Dict[str, Case] = {
    **{f"7: {program} with KSV_MEMORY {setting or 'unset'}": limited(program, setting, least, most)
       for program in ("bin/ksv-shell", "bin/ksv")
       for setting, least, most in (("1500M", 1500 * MEBI, 1500 * MEBI), ("3g", 3072 * MEBI, 3072 * MEBI), ("2000000K", 2048000000, 2048000000), ("", available() // 4, available()))},
}
