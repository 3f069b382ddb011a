"""A build: proofs side by side by a plan, until the last crate is proved, or one isn't."""
from __future__ import annotations

import os
import re
import signal
import threading
import time
from typing import Callable, Optional

from tools.build.graph import Crate, below, crates
from tools.build.plan import Plan
from tools.build.progress import Progress
from tools.build.proofs import Proof, Prover, Took, end

# The memory that stays free beside the proofs, in MiB.
SPARE = 1000


def free_memory() -> int:
    """The memory that is free, in MiB."""
    with open("/proc/meminfo", encoding="utf-8") as file:
        return int(re.search(r"MemAvailable: *(\d+)", file.read())[1]) // 1024


def planned(names: list[str], processors: Optional[int] = None) -> Plan:
    """The plan for these crates and those below them, on this machine."""
    known = crates()
    chosen = {name: known[name] for name in below(names, known)}
    return Plan(chosen, processors or len(os.sched_getaffinity(0)), free_memory() - SPARE)


class Making:
    """A build of some crates in a folder. What is told of it goes to `tell`, a line each; `took` has what each proof took."""

    def __init__(self, plan: Plan, kit: str, room: str, tell: Callable[[str], None]) -> None:
        self.plan, self.prover, self.tell = plan, Prover(kit, room, plan.crates), tell
        self.progress, self.running, self.took = Progress(plan), {}, {}
        # Crates whose proof was killed and is to begin once more, alone; and the names of all that were.
        self.killed, self.again = [], set()
        self.start, self.ended, self.lock = time.monotonic(), threading.Event(), threading.Lock()

    def made(self) -> str:
        """Proves all; why that isn't so, with what the prover said, empty where all are proved."""
        self.prover.stage()
        threading.Thread(target=self.beat, daemon=True).start()
        try:
            return self.proofs()
        finally:
            self.ended.set()
            end([*self.running.values()])

    def proofs(self) -> str:
        """Begins what can be begun, and waits for what ends, until all are proved or one isn't."""
        while len(self.progress.proved) < len(self.plan.crates):
            self.begin()
            ended, took = self.prover.wait([*self.running.values()])
            with self.lock:
                del self.running[ended.crate.name]
            if not self.is_again(ended):
                why = self.prover.fault(ended)
                if why:
                    return f"{ended.said()}\n{why}"
                self.note(ended.crate, took)
        return ""

    def begin(self) -> None:
        """Begins all proofs that can run now. One that was killed runs alone, so until then no other begins."""
        if self.killed:
            if not self.running:
                self.started(self.killed.pop(0), 1)
            return
        while True:
            chosen = self.plan.next(self.progress.proved, {name: it.jobs for name, it in self.running.items()})
            if not chosen:
                return
            self.started(self.plan.crates[chosen[0]], chosen[1])

    def started(self, crate: Crate, jobs: int) -> None:
        """Begins a proof."""
        proof = self.prover.begin(crate, jobs)
        with self.lock:
            self.running[crate.name] = proof

    def is_again(self, ended: Proof) -> bool:
        """Whether a proof that was killed beside others, most likely for memory, is to begin once more, alone and on one processor."""
        name = ended.crate.name
        if ended.process.returncode != -signal.SIGKILL or name in self.again or (ended.jobs == 1 and not self.running):
            return False
        self.tell(f"the proof of {name} was killed, most likely for memory: once more, when the others have ended")
        self.again.add(name)
        self.killed.append(ended.crate)
        return True

    def note(self, crate: Crate, took: Took) -> None:
        """Notes a proof that ended well, and tells how far the build is."""
        with self.lock:
            self.took[crate.name] = took
            self.progress.ended(crate.name, took.processor / 60)
        self.beat_once()

    def beat(self) -> None:
        """Tells each minute how far the build is."""
        while not self.ended.wait(60):
            self.beat_once()

    def beat_once(self) -> None:
        """Tells how far the build is."""
        with self.lock:
            now = time.monotonic()
            running = {name: (it.jobs, (now - it.begun) / 60) for name, it in self.running.items()}
            if len(self.progress.proved) == len(self.plan.crates):
                return
            line = self.progress.line((now - self.start) / 60, running)
        self.tell(line)


def table(making: Making) -> str:
    """What each proof took, as the lines of minutes.txt."""
    return "".join(f"{name} {it.processor / 60:.2f} {it.memory}\n" for name, it in sorted(making.took.items()))
