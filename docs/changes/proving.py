"""Proofs of what a patch changes: in a patched copy of the repository, over the libraries of a folder."""
from __future__ import annotations

import os
import subprocess
from typing import Callable

from tools.build import making
from tools.build.graph import Crate, below, crates
from tools.build.plan import Plan

KIT = os.path.realpath(os.environ.get("RATTLE_KIT", "/opt/rattle"))


def between(touched: list[str], known: dict[str, Crate]) -> list[str]:
    """These crates, and each crate that is above one of them and below another."""
    found = below(touched, known)
    return [it for it in found if {*touched} & {*below([it], known)}]


def processors() -> int:
    """How many processors the proofs may use: what RT_JOBS says, or all."""
    return int(os.environ.get("RT_JOBS") or len(os.sched_getaffinity(0)))


class Patched(making.Making):
    """Proofs of some crates of a patched copy. Those below them are proved too, or their libraries are taken from a folder where all of these were built."""

    def __init__(self, room: str, names: list[str], over: str, tell: Callable[[str], None]) -> None:
        self.room, self.names, self.over, known = room, names, over, crates(room)
        chosen = {name: known[name] for name in below(names, known)}
        super().__init__(Plan(chosen, processors(), making.free_memory() - making.SPARE), KIT, room, tell)
        self.prover.stage = self.stage

    def lent(self) -> list[str]:
        """The crates whose libraries are taken from the folder."""
        return [it for it in self.plan.crates if self.over and it not in self.names]

    def missing(self) -> str:
        """Which of the libraries that are to be taken aren't there; empty where all are."""
        gone = [it for it in self.lent() if not os.path.exists(f"{self.over}/crates/{it}/out/rlib/{it}.rlib")]
        return f"{self.over} has no library of {', '.join(gone)}" if gone else ""

    def stage(self) -> None:
        """Makes room for what is proved, and puts the libraries that are taken in their places."""
        for name in self.plan.crates:
            out = f"{self.room}/crates/{name}/out"
            if name in self.lent():
                os.symlink(f"{self.over}/crates/{name}/out", out)
                self.progress.proved.add(name)
            else:
                os.makedirs(f"{out}/rlib")

    def minutes(self) -> float:
        """The minutes of a processor that the proofs of the patch's crates took."""
        return sum(it.processor for name, it in self.took.items() if name in self.names) / 60


def rows_wrong(room: str, crate: str, tables: list[str]) -> str:
    """Why the rows of some tables don't pass in a patched copy, by `rt try`; empty where each table is told as the crate's `stdout` has it, with none wrong."""
    words = [f"{KIT}/bin/rt", "try", "--", *tables]
    how = {"stdin": subprocess.DEVNULL, "stdout": subprocess.PIPE, "stderr": subprocess.STDOUT, "text": True, "errors": "replace"}
    said = subprocess.run(words, cwd=f"{room}/crates/{crate}", check=False, **how).stdout
    with open(f"{room}/crates/{crate}/stdout", encoding="utf-8") as file:
        wanted = {row.partition(":")[0]: row for row in file.read().splitlines() if row.endswith(", 0 wrong")}
    wrong = [it for it in map(os.path.basename, tables) if it not in wanted or wanted[it] not in said.splitlines()]
    return f"{', '.join(wrong)}: {said[-2000:]}" if wrong else ""
