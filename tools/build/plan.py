"""Who is proved next, on how many processors, and how long the rest takes: decided from values alone."""
from __future__ import annotations

from dataclasses import dataclass, field
from typing import Optional

from tools.build.graph import Crate

# What one proof can use of processors, and how much of what one processor does each further one adds.
MOST_JOBS, GAIN = 4, 0.75
# A proof shorter than this, in minutes, gets one processor.
SHORT = 0.7


@dataclass
class Plan:
    """The crates of a build, and what it may use: processors, and memory in MiB."""

    crates: dict[str, Crate]
    processors: int
    memory: int
    chains: dict[str, float] = field(default_factory=dict)

    def __post_init__(self) -> None:
        self.chains = {name: self.chain(name) for name in self.crates}

    def chain(self, name: str) -> float:
        """The minutes from the begin of a crate's proof to the end of the last one that waits for it."""
        above = [self.chain(other.name) for other in self.crates.values() if name in other.own]
        return self.crates[name].minutes + max(above, default=0.0)

    def ready(self, proved: set[str], running: dict[str, int]) -> list[str]:
        """The crates whose libraries are all proved and which neither are nor run: the longest chain first."""
        waiting = [it for it in self.crates.values() if it.name not in proved and it.name not in running and proved.issuperset(it.own)]
        return [it.name for it in sorted(waiting, key=lambda it: (-self.chains[it.name], it.name))]

    def next(self, proved: set[str], running: dict[str, int]) -> Optional[tuple[str, int]]:
        """The crate to begin now and the processors that it gets; None where nothing can be begun. `running` has each crate that runs and its processors."""
        free = self.processors - sum(running.values())
        room = self.memory - sum(self.crates[name].memory for name in running)
        ready = [name for name in self.ready(proved, running) if self.crates[name].memory <= room or not running]
        if free < 1 or not ready:
            return None
        chosen = self.crates[ready[0]]
        beside = [name for name in ready[1:] if self.crates[name].memory <= room - chosen.memory]
        return chosen.name, 1 if chosen.minutes < SHORT else min(max(1, free - len(beside)), MOST_JOBS)

    def left(self, proved: set[str], running: dict[str, tuple[int, float]], pace: float) -> float:
        """The minutes that are left, where a proof takes `pace` times what is stored. `running` has the processors of each crate that runs, and its minutes."""
        done, now = set(proved), 0.0
        ends = {name: max(0.1, self.clock(name, jobs) * pace - since) for name, (jobs, since) in running.items()}
        taken = {name: jobs for name, (jobs, _) in running.items()}
        while len(done) < len(self.crates):
            begun = self.next(done, taken)
            if begun:
                taken[begun[0]], ends[begun[0]] = begun[1], now + self.clock(*begun) * pace
                continue
            first = min(ends, key=lambda name: ends[name])
            now = ends.pop(first)
            del taken[first]
            done.add(first)
        return now

    def clock(self, name: str, jobs: int) -> float:
        """The minutes that a proof takes by the clock on so many processors, by what is stored."""
        return self.crates[name].minutes / (1 + GAIN * (jobs - 1))
