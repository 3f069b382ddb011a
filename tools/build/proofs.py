"""The prover as a process: a crate is proved from nothing and built, and what it said is judged as `rt ci` does."""
from __future__ import annotations

import os
import re
import shutil
import signal
import subprocess
import time
from dataclasses import dataclass

from front.parent import ends_with_parent
from tools.build.graph import TOP, Crate, below

# What the prover's last line may say, of the words that the kit's `rt` knows: each other one says what the proof leaves out, or what the program may reach.
WORDS = "functions|axioms|target|cpu|sum"
PROVED = re.compile(rf"^logic=proved( ({WORDS})=\S+)+ native=nat,char,string logic-built=trusted libraries-built=trusted statements=trusted\n\Z", re.M)
TARGET = "x86_64-unknown-linux-gnu"


@dataclass
class Proof:
    """A proof that runs: its crate, the process with what it prints, its processors, and when it began."""

    crate: Crate
    process: subprocess.Popen[bytes]
    log: str
    jobs: int
    begun: float

    def said(self) -> str:
        """What it has printed."""
        with open(self.log, encoding="utf-8", errors="replace") as file:
            return file.read()


@dataclass(frozen=True)
class Took:
    """What a proof took: seconds of a processor, seconds by the clock, and the most memory in MiB."""

    processor: float
    clock: float
    memory: int


class Prover:
    """Proves copies of crates in a folder, over the libraries that it has proved there."""

    def __init__(self, kit: str, room: str, crates: dict[str, Crate]) -> None:
        self.kit, self.room, self.crates = kit, room, crates

    def stage(self) -> None:
        """Copies the crates' files, without must-fail edits: what is changed meanwhile changes nothing in this build."""
        for name in self.crates:
            shutil.copytree(f"{TOP}/crates/{name}", f"{self.room}/crates/{name}", ignore=shutil.ignore_patterns("out", "must-fail", "data"))
            os.makedirs(f"{self.room}/crates/{name}/out/rlib")

    def rlib(self, name: str) -> str:
        """Where a library's statements lie."""
        return f"{self.room}/crates/{name}/out/rlib"

    def words(self, crate: Crate, jobs: int) -> list[str]:
        """The prover's words for a crate."""
        is_program = self.is_program(crate)
        words = [f"{self.kit}/bin/rattle", "build", "--crate-name", crate.name, "src/main.rt" if is_program else "src/lib.rt"]
        for name in ("std", *crate.of_kit):
            words += ["--extern", f"{name}={self.kit}/rlibs/{name}.rlib"]
        words += ["-L", f"dependency={self.kit}/rlibs"]
        for name in crate.own:
            words += ["--extern", f"{name}={self.rlib(name)}/{name}.rlib"]
        for name in below([*crate.own], self.crates):
            words += ["-L", f"dependency={self.rlib(name)}"]
        words += ["--antt-project", f"{self.kit}/rattle/logic/antt-project.json", "--logic-built", f"{self.kit}/logic_built"]
        words += ["--links", f"{crate.name}=", "--jobs", str(jobs)]
        made = ["--toolchain", f"{self.kit}/toolchain", "--backend", "llvm"] if is_program else ["--statements"]
        return [*words, *made, "-o", self.made(crate)]

    def is_program(self, crate: Crate) -> bool:
        """Whether a crate is a program."""
        return os.path.exists(f"{self.room}/crates/{crate.name}/src/main.rt")

    def made(self, crate: Crate) -> str:
        """What the prover makes of a crate: a library's statements, or a program's object file."""
        return f"{self.room}/crates/{crate.name}/out/{crate.name}.o" if self.is_program(crate) else f"{self.rlib(crate.name)}/{crate.name}.rlib"

    def begin(self, crate: Crate, jobs: int) -> Proof:
        """Begins the proof of a crate. It ends with this process, whatever ends that."""
        log = f"{self.room}/crates/{crate.name}/out/log"
        with open(log, "wb") as file:
            how = {"stdin": subprocess.DEVNULL, "stdout": file, "stderr": subprocess.STDOUT, "start_new_session": True}
            how["preexec_fn"] = ends_with_parent(signal.SIGKILL)
            process = subprocess.Popen(self.words(crate, jobs), cwd=f"{self.room}/crates/{crate.name}", **how)
        return Proof(crate, process, log, jobs, time.monotonic())

    def wait(self, running: list[Proof]) -> tuple[Proof, Took]:
        """Waits until one of the proofs ends, and ends what it began and left; what it took."""
        by_number = {it.process.pid: it for it in running}
        while True:
            for number, it in by_number.items():
                found, status, used = os.wait4(number, os.WNOHANG)
                if found:
                    kill(number)
                    it.process.returncode = os.waitstatus_to_exitcode(status)
                    return it, Took(used.ru_utime + used.ru_stime, time.monotonic() - it.begun, used.ru_maxrss // 1024)
            time.sleep(0.05)

    def fault(self, it: Proof) -> str:
        """Why an ended proof doesn't count; empty where its crate is proved and built."""
        if it.process.returncode == -signal.SIGKILL:
            why = f"its prover was killed, most likely for memory, of which it takes some {it.crate.memory} MiB; end other programs, and call again"
            return f"{it.crate.name} isn't proved: {why}"
        if it.process.returncode:
            return f"{it.crate.name} isn't proved (status {it.process.returncode})"
        if not PROVED.search(it.said()):
            return f"{it.crate.name}: the prover's last line isn't one that says that all is proved"
        return "" if os.path.exists(self.made(it.crate)) else f"{it.crate.name} is proved, and nothing was built"

    def program(self, crate: Crate) -> str:
        """Where a linked program lies."""
        return f"{self.room}/crates/{crate.name}/out/{crate.name}"

    def link(self, crate: Crate) -> str:
        """Links a program's object file; why that fails, with what the linker said, empty where it doesn't."""
        words = [f"{self.kit}/bin/rattle-link", "--target", TARGET, "--toolchain", f"{self.kit}/toolchain", "-o", self.program(crate), self.made(crate)]
        words += [f"{self.kit}/c/libos_c.a", f"{self.kit}/c/liblibc_c.a"]
        ran = subprocess.run(words, stdin=subprocess.DEVNULL, stdout=subprocess.PIPE, stderr=subprocess.STDOUT, errors="replace", check=False)
        return f"{ran.stdout}\n{crate.name} can't be linked (status {ran.returncode})" if ran.returncode else ""


def kill(group: int) -> None:
    """Ends the processes of a group, where there are any."""
    try:
        os.killpg(group, signal.SIGKILL)
    except ProcessLookupError:
        pass


def end(running: list[Proof]) -> None:
    """Ends proofs that still run, with all that they began."""
    for it in running:
        if it.process.returncode is None:
            kill(it.process.pid)
            it.process.wait()
