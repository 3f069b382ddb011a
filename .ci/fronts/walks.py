"""Random sessions beside the model, some of which are killed at any time and taken up again."""
import contextlib
import os
import random
import signal
import time
from typing import List, Tuple

from fronts.breaks import Journey, Kind, Wrong
from fronts.model import KSY, State
from fronts.room import Piped, Silent, Tree, room_of

LINES, SESSIONS, KILLED = 500, 4, 0.03
CONTENT = random.Random(64).randbytes(3000)
KIND = Kind("random", signal.SIGKILL, Piped, -signal.SIGKILL)


def line_of(state: State, source: random.Random) -> str:
    """A random line."""
    size, kind = len(state.content), source.choice(["set"] * 3 + ["ins"] * 3 + ["del", "del", "app", "put", "undo", "undo", "undo", "redo", "redo", "save OUT", "save FILE"])
    some = source.randbytes(source.choice([1, 1, 2, 40])).hex()
    at = source.choice([0, size, size + 1, source.randrange(size + 1), source.randrange(size + 1)])
    raw = source.choice(["", "", "raw "])
    if kind in ("set", "ins"):
        return f"{raw}{kind} {at} {some}"
    if kind == "del":
        return f"{raw}del {at} {source.choice([1, 2, 100, 1500])}"
    if kind == "app":
        return f"{raw}app {some}"
    return f"{raw}put /a {source.choice([0, 77, 1 << 31, 1 << 32])}" if kind == "put" else kind


def killed(journey: Journey, line: str, source: random.Random) -> None:
    """Kills the shell some time after a line, and takes up what it left, where the line is done or not."""
    before, shell = journey.state, journey.shell
    name = line.split(" ")[1] if line.startswith("save") else ""
    old = journey.room.read(name) if name else None
    shell.running.stdin.write(f"{line}\n".encode())
    shell.running.stdin.flush()
    time.sleep(source.choice([0, 0.001, 0.003, 0.01, 0.03]))
    os.kill(shell.pid, signal.SIGKILL)
    shell.status = shell.running.wait()
    after = before.after(line)[0]
    if name and journey.room.read(name) not in (old, after.content):
        raise Wrong(f"{name} is neither old nor new")
    journey.same([before, after], f"killed at {line[:40]}")


def walk(tree: Tree, seed: int) -> Tuple[int, List[str]]:
    """A random session: how many lines there were, and what is wrong."""
    source, number = random.Random(seed), 0
    with room_of(tree, {"FILE": CONTENT, "KSY": KSY}) as room:
        journey = Journey(room, KIND, source, state=State(CONTENT))
        try:
            journey.begin()
            for number in range(LINES):
                line = line_of(journey.state, source)
                if source.random() < KILLED:
                    killed(journey, line, source)
                else:
                    journey.plainly(line)
            journey.plainly("save LAST")
            if room.read("LAST") != journey.state.content:
                raise Wrong("the file that is saved last has other bytes")
        except (Wrong, Silent) as error:
            return number, [f"random session {seed}, line {number + 1}: {error}"]
        finally:
            with contextlib.suppress(AttributeError):
                journey.shell.close()
    return LINES, []
