"""The parts of the gate: how each is started, what it says, and whether it counted what .ci/counts says.

A part's last line of its own is `NAME: N passed, M failed`, or `refused` and `not` for edits. Before it there may be lines `NAME: WHAT: N`, each a number
that is stored too. .ci/counts has a line `PART: N` for each part, and a line `PART: WHAT: N` for each such number; all are compared exactly.

To add a part: its line here, and `.ci/gate --write PART`.
"""
from __future__ import annotations

import os
import re
import signal
import subprocess
from dataclasses import dataclass, field

TOP = os.path.dirname(os.path.dirname(os.path.realpath(__file__)))
COUNTS = ".ci/counts"
LAST = re.compile(r"^(?:(\w+): )?(\d+) (?:passed|refused), (\d+) (?:failed|not)\b", re.M)
NUMBER = re.compile(r"^(\w+): ([^:\n]+): (\d+)$", re.M)


@dataclass(frozen=True)
class Part:
    """A part: its name in .ci/counts, and the words that start it, in which {top} is the repository, {copy} the copy in which all is proved and built,
    {log} what `rt ci` said there, and {commit} the commit's number."""

    name: str
    words: tuple[str, ...]

    def started_by(self, places: dict[str, str]) -> list[str]:
        """Its words, over these places."""
        return [word.format(**places) for word in self.words]


# What takes seconds comes first: a failure ends the run before anything is proved.
EARLY = (
    Part("inventory", ("{top}/.ci/inventory",)),
    Part("dry", ("{top}/edits/run", "--dry")),
    Part("named", ("{top}/.ci/named",)),
    Part("layout", ("{top}/.ci/layout",)),
    Part("rows", ("{top}/tools/rows/run", "--check")),
    Part("patches", ("{top}/docs/changes/run", "--files")),
    Part("kit", ("{top}/edits/run", "--self")),
)
PROOFS = Part("rt", ("rt", "ci"))
EDITS = Part("edits", ("{top}/edits/run", "--gate", "--over", "{copy}", "--rt", "{log}"))
CHANGES = Part("changes", ("{top}/docs/changes/run", "--some", "{commit}", "--over", "{copy}"))
# The parts whose time is the prover's.
PROVING = (PROOFS, EDITS, CHANGES)
# Through the program that was proved: parts of one process each, that run side by side.
TOGETHER = (
    Part("examples", ("{copy}/examples/run",)),
    Part("reference", ("{copy}/.ci/reference",)),
    Part("program", ("{copy}/.ci/program",)),
    Part("launcher", ("{copy}/.ci/launcher",)),
    Part("hints", ("{copy}/.ci/hints",)),
    Part("mend", ("{copy}/.ci/mend",)),
    Part("shell", ("{copy}/.ci/shell",)),
)
# The same, one after the other: each takes all processors.
ALONE = (
    Part("front", ("{copy}/.ci/front",)),
    Part("view", ("{copy}/.ci/view", "--some", "{commit}")),
    Part("saves", ("{copy}/.ci/saves",)),
    Part("refusals", ("{copy}/.ci/refusals",)),
    Part("hostile", ("{copy}/.ci/hostile",)),
    Part("gaps", ("{copy}/.ci/gaps",)),
    Part("second", ("{copy}/tools/second/run",)),
    Part("self", ("{top}/.ci/self", "--some", "{commit}", "--over", "{copy}")),
)
LATE = (*TOGETHER, *ALONE)
PARTS = (*EARLY, PROOFS, EDITS, CHANGES, *LATE)
# What can be started and is no part: the gate itself, and what is run by hand.
TOOLS = (".ci/gate", ".ci/run", ".ci/times", "bench/run", "tools/build/run")


@dataclass
class Said:
    """What a part said: its numbers by their names in .ci/counts, how much failed, whether its last line is there, and a line for each number that isn't
    as it is stored."""

    text: str
    numbers: dict[str, int] = field(default_factory=dict)
    failed: int = 0
    is_whole: bool = False
    other: list[str] = field(default_factory=list)


def said(name: str, text: str) -> Said:
    """What a part of this name said, by its text."""
    found, lines = Said(text), LAST.findall(text)
    if lines:
        own, passed, failed = lines[-1]
        found.is_whole, found.failed = True, int(failed)
        found.numbers = {f"{name}: {what}": int(number) for by, what, number in NUMBER.findall(text) if by == own}
        found.numbers[name] = int(passed)
    return found


def stored(top: str) -> dict[str, int]:
    """The numbers of .ci/counts, by their names."""
    with open(f"{top}/{COUNTS}", encoding="utf-8") as file:
        rows = [row.rstrip("\n").rpartition(": ") for row in file if row.strip() and not row.startswith("#")]
    return {name: int(number) for name, _, number in rows}


def own_of(name: str, numbers: dict[str, int]) -> dict[str, int]:
    """Those numbers that are a part's."""
    return {key: number for key, number in numbers.items() if key == name or key.startswith(f"{name}: ")}


def differences(name: str, found: Said, counts: dict[str, int]) -> list[str]:
    """A line for each number that a part didn't find as it is stored; a part that ends without its last line has none."""
    if not found.is_whole:
        return [f"{name}: it ended without its last line"]
    wanted = own_of(name, counts)
    keys = sorted({*wanted, *found.numbers})
    return [f"{key}: {found.numbers.get(key, 'nothing')}, and {COUNTS} has {wanted.get(key, 'nothing')}" for key in keys if wanted.get(key) != found.numbers.get(key)]


def write(top: str, numbers: dict[str, int], names: list[str]) -> None:
    """Writes .ci/counts anew: these numbers in place of those of these parts."""
    kept = {key: number for key, number in stored(top).items() if key.split(":")[0] not in names}
    numbers = {key: number for key, number in numbers.items() if key.split(":")[0] in names}
    with open(f"{top}/{COUNTS}", encoding="utf-8") as file:
        head = [row for row in file if row.startswith("#")]
    every = {**kept, **numbers}
    rows = [f"{key}: {every[key]}\n" for part in PARTS for key in sorted(own_of(part.name, every))]
    with open(f"{top}/{COUNTS}", "w", encoding="utf-8") as file:
        file.write("".join([*head, *rows]))


def misplaced(top: str) -> list[str]:
    """What is wrong with the list of parts: one that is there and isn't listed, one that isn't there, and names that .ci/counts has of no part. A part that
    has no number there differs from it when it runs."""
    found = {f".ci/{name}" for name in os.listdir(f"{top}/.ci") if os.access(f"{top}/.ci/{name}", os.X_OK) and os.path.isfile(f"{top}/.ci/{name}")}
    found |= {os.path.relpath(f"{at}/run", top) for at in runs_at(top) if os.path.isfile(f"{at}/run")}
    listed = {re.sub(r"\{\w+\}/", "", it.words[0]) for it in PARTS if it is not PROOFS}
    wrong = [f"{it} is there, and no part of the gate" for it in sorted(found - listed - {*TOOLS})]
    wrong += [f"{it} is a part of the gate, and isn't there" for it in sorted(listed - found)]
    names, counted = {it.name for it in PARTS}, {key.split(":")[0] for key in stored(top)}
    return wrong + [f"{COUNTS} has {it}, which is no part" for it in sorted(counted - names)]


def runs_at(top: str) -> list[str]:
    """The folders in which a file `run` is a part or a tool."""
    above = [f"{top}/{name}" for name in sorted(os.listdir(top)) if os.path.isdir(f"{top}/{name}") and not name.startswith(".")]
    inside = [f"{top}/{within}/{name}" for within in ("docs", "tools") for name in sorted(os.listdir(f"{top}/{within}"))]
    return [*above, *inside]


# The parts that run at present.
RUNNING: list[subprocess.Popen[str]] = []


def end_all() -> None:
    """Ends all parts that still run."""
    for running in [*RUNNING]:
        end(running)


def end(running: subprocess.Popen[str]) -> None:
    """Ends a part that still runs, with all that it began."""
    for how, seconds in ((signal.SIGINT, 20), (signal.SIGKILL, 20)):
        if running.poll() is None:
            os.killpg(running.pid, how)
            try:
                running.wait(seconds)
            except subprocess.TimeoutExpired:
                pass


def run(part: Part, places: dict[str, str], settings: dict[str, str], is_shown: bool = True) -> Said:
    """Runs a part over these places in their copy and shows what it says, if that is wanted; one whose status isn't 0 has failed in something."""
    how = {"stdin": subprocess.DEVNULL, "stdout": subprocess.PIPE, "stderr": subprocess.STDOUT, "text": True, "errors": "replace"}
    words, lines = part.started_by(places), []
    running = subprocess.Popen(words, cwd=places["copy"], env=settings, start_new_session=True, **how)
    try:
        RUNNING.append(running)
        for line in running.stdout:
            lines.append(line)
            if is_shown:
                print(line, end="", flush=True)
        status = running.wait()
    finally:
        end(running)
        RUNNING.remove(running)
    found = said(part.name, "".join(lines))
    found.failed = found.failed or (1 if status or not found.is_whole else 0)
    return found
