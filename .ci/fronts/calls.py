"""The shell is killed at each of its system calls that change a file, below each of some lines; or the call fails, or the disk is full from then on."""
import random
import signal
import struct
import subprocess
from dataclasses import dataclass
from typing import List, Tuple

from fronts.breaks import Journey, Kind, Wrong
from fronts.model import KSY, State
from fronts.room import HERE, Piped, Silent, Tree, room_of

CONTENT = random.Random(65).randbytes(3000)
LINES = ["set 5 0102", "ins 0 aabb", "undo", "redo", "put /a 7", "save OUT", "save FILE", "del 3 100"]
# Where killed.c has its plan in the control file; the ways of a call, of which the last two let it fail; and how many calls are below a line at most.
OFFSET, WAYS, MOST = 2048, (2049, 2050, 2051, 2052, 2053), 30
FAILING, NO_ROOM = WAYS[3:], "No space left on device"
KIND = Kind("killed at a system call", signal.SIGKILL, Piped, -signal.SIGKILL)


def arm(journey: Journey, number: int, way: int) -> None:
    """Lets the shell be killed at its n-th call from now on; at none for 0."""
    journey.room.control.map[OFFSET : OFFSET + 16] = struct.pack("=4I", bool(number), 0, number, way)


def is_met(journey: Journey) -> bool:
    """Whether the call came."""
    count, at = struct.unpack("=2I", journey.room.control.map[OFFSET + 4 : OFFSET + 12])
    return count >= at


def trial(journey: Journey, line: str, number: int, way: int) -> bool:
    """A shell that is killed below a line, and the one after it; whether the call came."""
    journey.plainly("size")
    before, after, wanted = journey.state, *journey.state.after(line)
    name = line.split(" ")[1] if line.startswith("save") else ""
    old = journey.room.read(name) if name else None
    arm(journey, number, way)
    told = journey.shell.ask(line)
    is_there = is_met(journey)
    arm(journey, 0, 0)
    if (journey.shell.status is not None) != is_there or journey.shell.status not in (None, -signal.SIGKILL):
        raise Wrong(f"{line}, call {number}: the shell ended with status {journey.shell.status}")
    if name and journey.room.read(name) not in (old, after.content):
        raise Wrong(f"{line}, call {number}: {name} is neither old nor new")
    journey.same([after] if told == wanted else [before, after], f"{line}, killed at call {number}, way {way - OFFSET}")
    return is_there


def failing(journey: Journey, line: str, number: int, way: int) -> bool:
    """A line below which a call fails, or finds the disk full; whether the call came. What isn't done, or isn't in the journal, is told; the session goes on,
    and the next edit is in the journal with all before it."""
    journey.plainly("size")
    before, (after, wanted) = journey.state, journey.state.after(line)
    name = line.split(" ")[1] if line.startswith("save") else ""
    old, heard = journey.room.read(name) if name else None, len(journey.shell.told_aside())
    arm(journey, number, way)
    told, more = journey.shell.ask(line), journey.shell.ask("size")
    is_there, aside = is_met(journey), journey.shell.told_aside()[heard:]
    arm(journey, 0, 0)
    if journey.shell.status is not None or "Traceback" in aside:
        raise Wrong(f"{line}, call {number} fails: status {journey.shell.status}, {aside[-300:]!r}")
    if told != wanted and not (is_there and NO_ROOM in told):
        raise Wrong(f"{line}, call {number} fails: told {told!r}, and not {wanted!r}")
    journey.state = after if told == wanted else before
    if more != journey.state.after("size")[1] or name and journey.room.read(name) != (after.content if told == wanted else old):
        raise Wrong(f"{line}, call {number} fails: {name} isn't as it was told, {told!r}, {more!r}")
    if f"isn't in the journal: {NO_ROOM}" not in aside:
        journey.same([journey.state], f"{line}, call {number} fails")
    journey.plainly(f"set 11 {journey.source.randbytes(2).hex()}")
    journey.same([journey.state], f"{line}, after call {number} failed")
    return is_there


def through(journey: Journey, line: str, is_first: bool) -> int:
    """Kills the shell at each call below a line, or below the first edit of a session; how many there were."""
    for number in range(1, MOST):
        if not is_first:
            journey.plainly(f"set 7 {journey.source.randbytes(3).hex()}")
        if line == "redo":
            journey.plainly("undo")
        if not (failing if journey.way in FAILING else trial)(journey, line, number, journey.way):
            return number - 1
        if is_first and journey.state.greatest:
            journey.plainly("save FILE")
            journey.shell.close()
            journey.state = State(journey.state.content)
            journey.begin()
    raise Wrong(f"{line}: there is no end of its calls")


@dataclass
class Killed(Journey):
    """A journey whose shell is killed in one way."""

    way: int = 0


def run(tree: Tree, way: int) -> Tuple[int, List[str]]:
    """Kills the shell in one way at each call of each line: how many there were, and what is wrong."""
    made: List[int] = []
    with room_of(tree, {"FILE": CONTENT, "KSY": KSY}) as room:
        library = room.path("killed.so")
        subprocess.run(["cc", "-O2", "-shared", "-fPIC", "-o", library, f"{HERE}/killed.c", "-ldl"], check=True)
        room.environ["LD_PRELOAD"] = library
        journey = Killed(room, KIND, random.Random(way), state=State(CONTENT), way=way)
        try:
            journey.begin()
            made += [through(journey, line, count == 0) for count, line in enumerate(LINES)]
        except (Wrong, Silent) as error:
            return sum(made), [str(error)]
        finally:
            if journey.shell:
                journey.shell.close()
    return sum(made), [] if all(made) else [f"calls below the lines: {made}"]
