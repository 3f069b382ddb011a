"""Walks over all that is below a path: the faults there, the bytes that no member has or that two have, and what differs in another file.

Each walk goes level by level and has a budget of questions; where it gives up, it tells from which path on.
"""
import re
from collections import deque
from itertools import islice
from typing import Callable, Deque, Dict, Iterator, List, Optional, Tuple

from front.look import Explorer, Spent, steps_of
from front.texts import cut

# How many steps down a walk goes, and how much of a value that differs is shown.
DEEPEST, SHOWN = 60, 60
Span = Tuple[int, int]


class Walk:
    """The paths below a path, a level after another; and where the walk was given up, if it was."""

    def __init__(self, explorer: Explorer, path: str) -> None:
        self.explorer, self.first, self.cut = explorer, path, None  # type: Explorer, str, Optional[str]

    def paths(self) -> Iterator[str]:
        """All paths, as far as the budget lasts."""
        rest: Deque[Tuple[str, int]] = deque([(self.first, 0)])
        path = self.first
        try:
            while rest:
                path, depth = rest.popleft()
                yield path
                below = self.explorer.children(path) if depth < DEEPEST else []
                # no more than questions are left for, of which each path takes one
                most = max(0, self.explorer.num_left() + 1 - len(rest))
                rest.extend((it, depth + 1) for it in islice(steps_of(path, below), most))
        except Spent:
            self.cut = path

    def note(self) -> List[str]:
        """What is told where the walk was given up."""
        return [f"  (not looked at from {self.cut} on: that many questions are asked at most)"] if self.cut else []


def faults(explorer: Explorer, path: str) -> List[str]:
    """The faults below a path, each once, with the first path that has it where that is another one. What is absent is none."""
    walk, found = Walk(explorer, path), {}  # type: Walk, Dict[str, str]
    try:
        for it in walk.paths():
            for word in ("get", "at"):
                told = explorer.ask(f"{word} {it}")
                if told.startswith("fault ") and not told.startswith("fault absent "):
                    found.setdefault(told, it)
    except Spent:
        walk.cut = walk.cut or path
    lines = [told if told.endswith(f" at {it}") else f"{told}  (seen at {it})" for told, it in found.items()]
    return (lines or ["no faults"]) + walk.note()


def cover(explorer: Explorer, size: int) -> List[str]:
    """The bytes that no member has, and those that two have, of members that have no others in them. What shares a byte by bits of its own isn't counted."""
    walk, spans = Walk(explorer, "/"), []  # type: Walk, List[Tuple[Span, str]]
    try:
        for it in walk.paths():
            span = bits_of(explorer.ask(f"at {it}"))
            if span and span[0] < span[1] and explorer.ask(f"ls {it}") == "no members":
                spans.append((span, it))
    except Spent:
        walk.cut = walk.cut or "/"
    return gaps(sorted(spans), size) + walk.note()


def bits_of(reply: str) -> Optional[Span]:
    """The first bit of a place and the one after its last; None where the reply is no place."""
    found = re.fullmatch(r"at (\d+)(?:\.(\d))? (\d+)(?:\.(\d))?", reply)
    return (int(found[1]) * 8 + int(found[2] or 0), int(found[3]) * 8 + int(found[4] or 0)) if found else None


def told_bits(begin: int, end: int) -> str:
    """A place of bits, as the program tells it."""
    return "at " + " ".join(f"{it // 8}.{it % 8}" if it % 8 else str(it // 8) for it in (begin, end))


def gaps(spans: List[Tuple[Span, str]], size: int) -> List[str]:
    """The lines of what isn't covered, and of what is twice."""
    lines, at, last = [], 0, ""
    for (begin, end), path in spans:
        if begin > at:
            lines.append(f"{told_bits(at, begin)}  in no member")
        elif begin < at:
            lines.append(f"{told_bits(begin, min(at, end))}  {last} and {path}")
        if end > at:
            at, last = end, path
    if at < size * 8:
        lines.append(f"{told_bits(at, size * 8)}  in no member")
    return lines or [f"each byte of {size} is in one member"]


def expanded(explorer: Explorer, path: str) -> Iterator[str]:
    """The paths that a path with `*` for steps is of, one after another."""
    steps = [it for it in path.split("/") if it]
    if "*" not in steps:
        yield path
        return
    at = steps.index("*")
    front = "/" + "/".join(steps[:at])
    for it in steps_of(front, explorer.children(front)):
        yield from expanded(explorer, "/".join([it, *steps[at + 1 :]]))


def differences(ours: Explorer, theirs: Explorer, path: str, shown: Callable[[str], str]) -> Iterator[str]:
    """The paths whose values differ in two files by the same description, with both values as they are shown."""
    rest: Deque[str] = deque([path])
    while rest:
        it = rest.popleft()
        told, other = ours.ask(f"get {it}"), theirs.ask(f"get {it}")
        if told != other:
            yield f"{it}  {cut(shown(told), SHOWN)} | {cut(shown(other), SHOWN)}"
        if told.startswith(("object ", "[")) and re.match(r"object |\[", other):
            most = max(0, ours.num_left() + 1 - len(rest))
            below, beside = (list(islice(steps_of(it, one.children(it)), most)) for one in (ours, theirs))
            known = set(beside)
            rest.extend(path for path in below if path in known)
