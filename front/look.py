"""Looking around in a file by questions: what is below a path, where it is, and what has a byte. Each walk has a budget of questions.

A list whose elements can't be counted is counted upwards (0, 1, 3, 7, ..) and then by halving: so no question is about an element far past the fault,
for which the program would open each one before it.
"""
import re
from dataclasses import dataclass
from typing import Iterable, List, Optional, Sequence, Tuple, Union

from front.session import Session

# The most questions of one command and letters of their replies, and the elements of a list that a tree shows.
MOST_ASKED, MOST_LETTERS, ELEMENTS = 5000, 34_000_000, 20
# Of how many letters a value is long, and how many of a long one are shown where it is one of many.
LONG, SHOWN = 8192, 68
# The most elements that a list of ksv has; the most faults that a search names, how many steps down it goes, and the most elements that it goes into where
# none has the byte.
MOST_ELEMENTS, FAULTS, DEEPEST, MOST_LOOKED = 1 << 20, 3, 60, 100

Below = Union[range, List[str]]


class Spent(Exception):
    """The budget of questions, or that of letters, is used up."""


def span_of(reply: str) -> Optional[Tuple[int, int]]:
    """The first byte of a place and the one after its last; None where the reply is no place."""
    found = re.fullmatch(r"at (\d+)(?:\.\d)? (\d+)(\.\d)?", reply)
    return (int(found[1]), int(found[2]) + bool(found[3])) if found else None


def joined(front: str, step: object) -> str:
    """The path one step below another."""
    return f"{'' if front == '/' else front}/{step}"


def steps_of(path: str, below: Below) -> Iterable[str]:
    """The paths of what is below a path; of a list its elements, one after another, as there may be a million."""
    return (joined(path, it) for it in below) if isinstance(below, range) else below


class Explorer:
    """Questions about paths, as many as a budget allows."""

    def __init__(self, session: Session, most: int = MOST_ASKED) -> None:
        self.session, self.begin, self.until, self.letters = session, session.asked, session.asked + most, MOST_LETTERS

    def ask(self, line: str) -> str:
        """The reply to a question, while the budget lasts."""
        if self.session.asked >= self.until or self.letters < 0:
            raise Spent
        told = self.session.ask(line)
        self.letters -= len(told)
        return told

    def num_asked(self) -> int:
        """How many questions were asked."""
        return self.session.asked - self.begin

    def num_left(self) -> int:
        """How many questions are left."""
        return max(0, self.until - self.session.asked)

    def value(self, path: str) -> str:
        """The value at a path, as `get` tells it; of a long one how it begins."""
        told = self.ask(f"get {path}")
        return told if len(told) <= LONG else f"{told[:SHOWN]} .. ({len(told)} characters)"

    def span(self, path: str) -> Optional[Tuple[int, int]]:
        """The first byte of something and the one after its last, also where it begins or ends within a byte; None where it has no place."""
        return span_of(self.ask(f"at {path}"))

    def children(self, path: str) -> Below:
        """The paths of what is in an object; a range of what is in a list. Of a list that can't be counted these are the elements before the fault, and the
        one that has it."""
        reply = self.ask(f"ls {path}")
        if reply.startswith("members"):
            return [joined(path, name) for name in reply.split()[1:]]
        if reply.startswith("fault"):
            return range(self.num_found(path))
        return range(int(reply[1:-1])) if re.fullmatch(r"\[\d+\]", reply) else []

    def num_found(self, path: str) -> int:
        """How many elements of a list that can't be counted are found, where an element is found if all before it have an end: upwards, and then by halving."""
        low, step = 0, 0
        while step < MOST_ELEMENTS and self.is_found(joined(path, step)):
            low, step = step + 1, 2 * step + 1
        high = min(step, MOST_ELEMENTS)
        while low < high:
            middle = (low + high) // 2
            low, high = (middle + 1, high) if self.is_found(joined(path, middle)) else (low, middle)
        return low

    def is_found(self, path: str) -> bool:
        """Whether there is something at a path, also where its end or its value is a fault."""
        return not self.ask(f"ls {path}").startswith(("fault", "error"))

    def is_within(self, path: str) -> bool:
        """Whether something begins or ends within a byte."""
        return bool(re.fullmatch(r"at .*\..*", self.ask(f"at {path}")))

    def sharing(self, path: str, place: int) -> List[str]:
        """What has bits of a byte that something has bits of, in the order of places: members and elements beside it, and beside the list that it is in."""
        found = {path}
        while path and self.is_within(path):
            front, _, step = path.rpartition("/")
            below = self.children(front or "/")
            near = [f"{front}/{it}" for it in below[max(0, int(step) - 7) : int(step) + 8]] if isinstance(below, range) else below
            found |= {it for it in near if it != path and self.is_within(it) and self.span(it)[0] <= place < self.span(it)[1]}
            path = front
        return sorted(found, key=lambda it: [float(word) for word in self.ask(f"at {it}").split()[1:]])


@dataclass
class Found:
    """What a search found: the innermost member that has the byte, the paths whose faults it didn't get past, and where it gave up."""

    best: Optional[str]
    faults: List[Tuple[str, str]]
    cuts: List[str]

    def is_open(self, path: str) -> bool:
        """Whether something at a path would be further inside than the best member, or there is none."""
        return not self.best or path.startswith(f"{self.best}/")

    def notes(self) -> List[str]:
        """What wasn't searched, and may have the byte: what comes after faults, and where the search was given up."""
        faults = list(dict.fromkeys(fault for path, fault in self.faults if self.is_open(path)))
        more = f" and {len(faults) - FAULTS} more" if len(faults) > FAULTS else ""
        told = [f"  (not searched behind the fault at {', '.join(faults[:FAULTS])}{more})"] if faults else []
        cuts = [it for it in self.cuts if self.is_open(it)]
        return told + ([f"  (not searched from {cuts[0]} on)"] if cuts else [])


class Search:
    """A search for the innermost member that has a byte.

    It goes first into what has the byte, then into what has a fault for its end, which may have it, and then into what is elsewhere, of which an instance
    may have it; into the latter two only where they are in the best member so far. In a list it finds the element by halving, over those that are found:
    some 40 questions of a million elements.
    """

    def __init__(self, explorer: Explorer, place: int) -> None:
        self.explorer, self.place = explorer, place
        self.found, self.rank = Found(None, [], []), (0, 0)
        self.having, self.broken, self.others = [("/", 0)], [], []

    def run(self) -> Found:
        """Searches, until nothing is left that may have the byte."""
        path = "/"
        try:
            while more := self.next():
                path, depth = more
                for it in self.below(path):
                    self.look(it, depth + 1)
        except Spent:
            self.found.cuts.append(path)
        return self.found

    def next(self) -> Optional[Tuple[str, int]]:
        """What is searched next, with its depth."""
        if self.having:
            return self.having.pop(0)
        while self.broken:
            path, depth, fault = self.broken.pop(0)
            if self.found.is_open(path):
                self.found.faults.append((path, fault))
                return path, depth
        while self.others:
            path, depth = self.others.pop(0)
            if self.found.is_open(path):
                return path, depth
        return None

    def look(self, path: str, depth: int) -> None:
        """Asks for the place of something."""
        told = self.explorer.ask(f"at {path}")
        span = span_of(told)
        has = span is not None and span[0] <= self.place < span[1]
        if has and (not self.found.best or (span[1] - span[0], -depth) <= self.rank):
            self.found.best, self.rank = path, (span[1] - span[0], -depth)
        if depth >= DEEPEST:
            self.found.cuts.append(path)
        elif told.startswith("fault"):
            self.broken.append((path, depth, told.rpartition(" ")[2]))
        elif span:
            (self.having if has else self.others).append((path, depth))

    def below(self, path: str) -> Sequence[str]:
        """What is in an object; of a list the element that has the byte, or whose end is a fault, and else the first ones."""
        below = self.explorer.children(path)
        if not isinstance(below, range):
            return below
        low, high = 0, len(below)
        while low < high:
            middle = (low + high) // 2
            span = self.near(path, middle, high)
            low, high = (middle + 1, high) if span and span[1] <= self.place else (low, middle)
        low = self.present(path, low, len(below))
        found = [] if low == len(below) else [joined(path, low)]
        span = self.explorer.span(found[0]) if found else None
        if span and span[0] <= self.place or not below or self.explorer.ask(f"ls {joined(path, 0)}") == "no members":
            return found
        self.found.cuts += [joined(path, MOST_LOOKED)] if len(below) > MOST_LOOKED else []
        return found + [joined(path, it) for it in below[:MOST_LOOKED] if it != low]

    def near(self, path: str, index: int, stop: int) -> Optional[Tuple[int, int]]:
        """The place of an element, or of the first after it that isn't absent."""
        for it in range(index, min(stop, index + ELEMENTS)):
            told = self.explorer.ask(f"at {joined(path, it)}")
            if told != "absent":
                return span_of(told)
        return None

    def present(self, path: str, index: int, stop: int) -> int:
        """The index of an element, or of the first after it that isn't absent, as `near` has its place."""
        some = range(index, min(stop, index + ELEMENTS))
        return next((it for it in some if self.explorer.ask(f"at {joined(path, it)}") != "absent"), index)
