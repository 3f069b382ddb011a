"""How far a build is, in words: from stored minutes and this machine's pace so far."""
from __future__ import annotations

import math
from dataclasses import dataclass, field

from tools.build.plan import Plan

# How many stored minutes count as done at the stored pace when a build begins, so that the first short proof doesn't decide.
WEIGHT = 2.0


@dataclass
class Progress:
    """What is proved, by a plan: the names, and the minutes of a processor that they took here beside those that are stored."""

    plan: Plan
    proved: set[str] = field(default_factory=set)
    here: float = 0.0
    stored: float = 0.0

    def ended(self, name: str, minutes: float) -> None:
        """Notes a proof that ended after so many minutes of a processor."""
        self.proved.add(name)
        self.here += minutes
        self.stored += self.plan.crates[name].minutes

    def pace(self) -> float:
        """How many minutes this machine takes for one that is stored."""
        return (self.here + WEIGHT) / (self.stored + WEIGHT)

    def line(self, minute: float, running: dict[str, tuple[int, float]]) -> str:
        """What is told at a minute of the build, while these crates are proved on so many processors for so many minutes."""
        left = math.ceil(self.plan.left(self.proved, running, self.pace()))
        rest = "about a minute" if left <= 1 else f"about {left} minutes"
        libraries = [it for it in self.plan.crates if self.plan.chains[it] > self.plan.crates[it].minutes]
        proved = len([it for it in libraries if it in self.proved])
        what = f"{proved} of {len(libraries)} libraries proved" + ("; the program is proved, compiled and linked" if proved == len(libraries) else "")
        return f"{what}; minute {int(minute) + 1}, {rest} left"


def estimate(plan: Plan) -> int:
    """The minutes that a build takes at the stored pace."""
    return math.ceil(plan.left(set(), {}, 1.0))
