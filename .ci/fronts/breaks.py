"""Breaks of a session at each question below each of its lines, beside the model."""
import contextlib
import hashlib
import os
import random
import re
import signal
from dataclasses import dataclass, field
from typing import Callable, Dict, Iterator, List, Optional, Sequence, Tuple, Type

from fronts.model import KSY, State, noted
from fronts.room import DIED, HALF, NO_MEMORY, TOP, TWICE, Piped, Room, Shell, Silent, Terminal, Tree, room_of, settled

FILE = random.Random(62).randbytes(110_000)
SOME = random.Random(63).randbytes(130).hex()
LINES = [
    "set 5 0102", "ins 0 aabb", "del 100 50", "app ff00ff", "put /a 77", "raw set 9 cc", "undo", "undo", "redo", "save OUT",
    "put /a 4000000000", "undo", "redo", f"ins 64 {SOME}", "del 500 60000", "undo", "redo", "undo", "del 1000 100000", "undo",
    "redo", "save FILE", "undo", "save OUT", "redo", "undo", "raw ins 3 0a0b", "app 00", "undo", "undo",
    "redo", "set 999999 00", "put /a 99999999999", "save FILE", "undo", "undo", "set 1 01", "redo", "save OUT", "undo",
]
# How many lines a journey has.
SEGMENT = 5


@dataclass(frozen=True)
class Kind:
    """A way to break a line off: what is done at the question, and again at a later one; where the shell runs, whether it ends by that."""

    name: str
    action: int
    shell: Type[Shell]
    status: Optional[int] = None
    again: int = 0
    most: int = 3


KINDS = [
    Kind("ctrl-C", signal.SIGINT, Terminal),
    Kind("ctrl-C twice", TWICE, Terminal),
    Kind("ctrl-C, and while it is begun anew", signal.SIGINT, Terminal, again=signal.SIGINT),
    Kind("killed", DIED, Piped),
    Kind("killed in a reply", HALF, Piped),
    Kind("killed, and again", DIED, Piped, again=DIED),
    Kind("no memory", NO_MEMORY, Piped),
    Kind("no memory, and again", NO_MEMORY, Piped, again=NO_MEMORY),
    Kind("SIGINT", signal.SIGINT, Piped, 128 + signal.SIGINT, most=1),
    Kind("SIGHUP", signal.SIGHUP, Piped, 128 + signal.SIGHUP, most=1),
    Kind("SIGTERM", signal.SIGTERM, Piped, 128 + signal.SIGTERM, most=1),
    Kind("SIGKILL", signal.SIGKILL, Piped, -signal.SIGKILL, most=2),
    Kind("SIGHUP at a terminal", signal.SIGHUP, Terminal, 128 + signal.SIGHUP, most=1),
]


def seed() -> str:
    """A seed that is the same for the same files of front/ and of these tests."""
    found = hashlib.sha256()
    for folder in (f"{TOP}/front", os.path.dirname(__file__)):
        for name in sorted(os.listdir(folder)):
            if os.path.isfile(f"{folder}/{name}"):
                with open(f"{folder}/{name}", "rb") as file:
                    found.update(file.read())
    return found.hexdigest()


class Wrong(Exception):
    """What isn't as it should be."""


@dataclass
class Journey:
    """One session, and those after it where it ends, through some lines: each is broken off at each of some questions, and then done."""

    room: Room
    kind: Kind
    source: random.Random
    shell: Optional[Shell] = None
    state: State = State(FILE)
    num_trials: int = 0
    wrong: List[str] = field(default_factory=list)

    def begin(self) -> None:
        """Begins a shell."""
        self.shell = self.kind.shell(self.room)

    def told(self, line: str) -> str:
        """What is told below a line, but for what a terminal has below an error."""
        return re.sub(r"(?m)^(error: .*)\n  \(.*\)$", r"\1", self.shell.ask(line))

    def plainly(self, line: str) -> None:
        """Does a line with no break."""
        told, (after, wanted) = self.told(line), self.state.after(line)
        if told != wanted:
            raise Wrong(f"{line[:40]}: told {told[:200]!r}, and not {wanted!r}")
        self.state = after

    def line(self, line: str, numbers: Sequence[int], most: int) -> None:
        """Breaks a line off at some of its questions, and at all after those that are met then, and does it."""
        for number in [*numbers, *range(most + 1, most + 40)]:
            if line.startswith("save"):
                self.plainly(f"set 7 {self.source.randbytes(3).hex()}")
            before = self.state
            is_met = self.trial(line, number)
            if not is_met:
                return
            if self.state.done != before.done:
                self.plainly("redo" if line == "undo" else "undo")
        raise Wrong(f"{line[:40]}: there is no end of its questions")

    def trial(self, line: str, number: int) -> bool:
        """Breaks a line off at a question; whether that was met."""
        plans = [(number, self.kind.action, self.source.randrange(20_000))]
        if self.kind.again:
            plans.append((number + self.source.choice([1, 1, 2, 3, 5, 8]), self.kind.again, 0))
        name = line.split(" ")[1] if line.startswith("save") else ""
        old = self.room.read(name) if name else None
        self.plainly("size")
        before, (after, wanted) = self.state, self.state.after(line)
        self.room.control.arm(plans)
        told = self.told(line)
        fired = self.room.control.fired()
        self.num_trials += 1 if fired else 0
        if self.kind.action == TWICE and fired:
            self.room.control.wait_for_second()
        if isinstance(self.shell, Terminal) and fired and self.shell.status is None:
            self.shell.synced()
        if not self.kind.again:
            self.room.control.disarm()
        if self.shell.status is not None:
            self.ended(bool(fired))
        is_done = told.split("\n")[-1] == wanted
        if not fired and not is_done:
            raise Wrong(f"told {told[:200]!r}, and not {wanted!r}")
        if name:
            self.files(name, old, after.content, told, is_done)
        self.same([after] if is_done else [before, after], f"{told} ({number} of {plans})")
        self.room.control.disarm()
        return bool(fired)

    def files(self, name: str, old: Optional[bytes], new: bytes, told: str, is_done: bool) -> None:
        """Looks at the file that a save was to write."""
        now = self.room.read(name)
        if now not in ([new] if is_done else [old, new]):
            raise Wrong(f"{name} has {'no bytes' if now is None else len(now)}, neither old nor new ones")
        if "has its old bytes" in told and now != old:
            raise Wrong(f"{name} hasn't its old bytes, as is told")
        if self.shell.status is None and "saved " in told and not is_done:
            raise Wrong(f"told {told[-200:]!r}")

    def ended(self, is_meant: bool) -> None:
        """Looks at how the shell ended, and that it was meant to."""
        own = self.shell.told_aside() if isinstance(self.shell, Piped) else ""
        if not is_meant or self.shell.status != self.kind.status:
            raise Wrong(f"the shell ended with status {self.shell.status}: {own[-300:]!r}")
        if "Traceback" in own:
            raise Wrong(f"the shell ended with {own[-300:]!r}")

    def same(self, candidates: Sequence[State], told: str) -> None:
        """Finds which of some states the session has, or the next one after it was recovered, and whether all of it is so; the next line is answered by its
        own reply."""
        if self.shell.status is not None:
            candidates = self.recovered(candidates)
        size = self.shell.ask("size")
        for _ in range(3):
            if "broken off" in size or self.kind.action in (DIED, NO_MEMORY) and not size.startswith("size "):
                size = self.shell.ask("size")
        self.room.control.disarm()
        self.room.control.want_dump()
        size, listed = self.shell.ask("size"), self.shell.ask("edits")
        found = [it for it in candidates if it.listed() == listed]
        if not found:
            raise Wrong(f"after {told[-120:]!r}: `edits` tells {listed[-300:]!r}, and not {' or '.join(repr(it.listed()[-300:]) for it in candidates)}")
        self.state = found[0]
        if size != self.state.after("size")[1]:
            raise Wrong(f"`size` is answered by {size!r}, and not size {len(self.state.content)}")
        if self.room.dump() != self.state.content:
            raise Wrong("the program has other bytes than its edits make")
        self.on_disk()

    def recovered(self, candidates: Sequence[State]) -> Sequence[State]:
        """Begins a new shell, once no save goes on, which takes up what is left; the states that it may have. All saves are the sessions' own: so the next one
        must not be asked about."""
        self.shell.close()
        self.room.control.disarm()
        settled(self.room)
        self.begin()
        told = self.shell.ask("recover")
        file = self.room.read("FILE")
        if told.startswith("nothing to recover"):
            if not any(it.is_saved() for it in candidates):
                raise Wrong(f"{told!r}: {candidates[0].listed()!r} is lost")
            return [State(file)]
        if "was changed since" in told:
            raise Wrong(f"{told!r}, by nobody else")
        return [it for it in candidates if not it.is_saved()]

    def on_disk(self) -> None:
        """Looks at the journal, and whether what is told to be saved is."""
        state, found = self.state, [noted(f"{self.room.folder}/home/ksv/{it}") for it in self.room.journals()]
        lines = [tuple(it.line for it in some) for some in (state.done, state.undone)]
        if state.greatest and not any(it and [it.done, it.undone] == lines and (it.content, it.is_saved) == (state.content, state.is_saved()) for it in found):
            raise Wrong(f"the journal hasn't {state.listed()[-200:]!r}")
        if state.is_saved() and state.content not in (self.room.read("FILE"), self.room.read("OUT"), FILE):
            raise Wrong("it is told to be saved, and is nowhere")

    def run(self, first: int, numbers: Dict[int, Tuple[List[int], int]]) -> None:
        """Goes through the lines up to a segment plainly, and breaks off those of the segment."""
        index = 0
        try:
            self.begin()
            for index in range(first + SEGMENT):
                if index < first:
                    self.plainly(LINES[index])
                elif index < len(LINES):
                    self.line(LINES[index], *numbers[index])
        except (Wrong, Silent) as error:
            self.wrong.append(f"{self.kind.name}, line {index + 1}, {LINES[index][:40]}: {error}")
        finally:
            if self.shell:
                self.shell.close()


def counted(tree: Tree) -> List[int]:
    """How many questions are below each line."""
    with room_of(tree, {"FILE": FILE, "KSY": KSY}) as room, contextlib.closing(Piped(room)) as shell:
        found = []
        for line in LINES:
            shell.ask("size")
            room.control.arm()
            shell.ask(line)
            found.append(room.control.disarm()[0])
    return found


def journeys(counts: List[int], is_all: bool) -> Iterator[Tuple[Kind, int, Dict[int, Tuple[List[int], int]]]]:
    """All journeys, each with the questions of each line that are tried."""
    for kind in KINDS:
        for first in range(0, len(LINES), SEGMENT):
            numbers = {}
            for index in range(first, min(first + SEGMENT, len(LINES))):
                source, every = random.Random(f"{seed()} {kind.name} {index}"), list(range(1, counts[index] + 1))
                numbers[index] = (every if is_all or len(every) <= kind.most else sorted(source.sample(every, kind.most)), counts[index])
            yield kind, first, numbers


def one(tree: Tree, kind: Kind, first: int, numbers: Dict[int, Tuple[List[int], int]]) -> Tuple[int, List[str]]:
    """Makes a journey: how many breaks there were, and what is wrong."""
    with room_of(tree, {"FILE": FILE, "KSY": KSY, "OUT": b"as it was"}) as room:
        journey = Journey(room, kind, random.Random(f"{seed()} {kind.name} {first} journey"))
        journey.run(first, numbers)
        return journey.num_trials, journey.wrong


def planned(tree: Tree, is_all: bool) -> List[Tuple[str, Callable[[], Tuple[int, List[str]]]]]:
    """All journeys, by their names."""
    counts = counted(tree)
    return [(f"{kind.name}, from line {first + 1} on", lambda it=(kind, first, numbers): one(tree, *it)) for kind, first, numbers in journeys(counts, is_all)]


def total(tree: Tree) -> int:
    """How many breaks there are in all."""
    return sum(counted(tree)) * len(KINDS)
