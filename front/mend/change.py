"""A change of a text: what is put in place of what, the marks that tell of it, and how it is shown."""
from __future__ import annotations

from typing import Iterator, List, NamedTuple, Tuple, Union

from front.hints.shown import visible

MARK = "# ksv-mend: "


class Edit(NamedTuple):
    """A part of a text, from a place to another, and what comes in its place."""

    begin: int
    end: int
    text: str


class Mark(NamedTuple):
    """What is told at the end of the line that has a place, and of which member."""

    at: int
    name: str
    text: str


class Change(NamedTuple):
    """The edits and marks of a change, why it is made, and what is lost by it."""

    reason: str
    edits: Tuple[Edit, ...]
    marks: Tuple[Mark, ...] = ()
    losses: Tuple[str, ...] = ()


class Need(NamedTuple):
    """Why a person is needed; the empty text where the hint says it."""

    why: str = ""


Found = Union[Change, Need]


class Overlap(Exception):
    """Two edits of one change are of the same part of the text."""


def edits_of(text: str, change: Change) -> List[Edit]:
    """All edits of a change, its marks with them, in their order."""
    found = sorted([*change.edits, *marked(text, change.marks)])
    for one, other in zip(found, found[1:]):
        if other.begin < one.end:
            raise Overlap
    return found


def marked(text: str, marks: Tuple[Mark, ...]) -> Iterator[Edit]:
    """The edits that put marks at the ends of lines; several on one line are in one comment, with names."""
    ordered, stop, here = sorted(marks), -1, []
    for it in [*ordered, Mark(len(text) + 2, "", "")]:
        if it.at > stop and here:
            yield joined(text, stop, here)
            here = []
        if it.at > stop and it.at <= len(text):
            found = text.find("\n", it.at)
            stop = len(text) if found < 0 else found
        here.append(it)


def joined(text: str, stop: int, marks: List[Mark]) -> Edit:
    """The comment of marks at a line's end."""
    begin = text.rfind("\n", 0, stop) + 1
    stop -= text.startswith("\r", stop - 1) and stop > begin
    is_named = len(marks) > 1 or "{" in text[begin:stop]
    words = "; ".join(f"{it.name} {it.text}" if is_named and it.name else it.text for it in marks)
    return Edit(stop, stop, f"; {words}" if MARK in text[begin:stop] else f" {MARK}{words}")


def applied(text: str, change: Change) -> str:
    """A text with a change."""
    parts, at = [], 0
    for it in edits_of(text, change):
        parts += [text[at : it.begin], it.text]
        at = it.end
    return "".join([*parts, text[at:]])


def shown(text: str, change: Change) -> str:
    """A change as a diff: the lines that go and those that come, by groups of lines beside each other."""
    found, line, at, more = [], 1, 0, 0
    for group in groups(text, edits_of(text, change)):
        begin = text.rfind("\n", 0, group[0].begin) + 1
        stop = text.find("\n", max(group[-1].end, begin))
        stop = len(text) if stop < 0 else stop
        line += text.count("\n", at, begin)
        at, parts, old = begin, [], text[begin:stop].split("\n")
        for it in group:
            parts += [text[at : it.begin], it.text]
            at = it.end
        new = "".join([*parts, text[at:stop]]).split("\n")
        old, new, same = trimmed(old, new)
        found.append(f"@@ -{line + same},{len(old)} +{line + same + more},{len(new)} @@")
        found += [row("-", it) for it in old] + [row("+", it) for it in new]
        more += len(new) - len(old)
        at = begin
    return "".join(f"{it}\n" for it in found)


def row(sign: str, line: str) -> str:
    """A line of a diff, without the end that it has."""
    return sign + visible(line.rstrip("\r"))


def trimmed(old: List[str], new: List[str]) -> Tuple[List[str], List[str], int]:
    """Two lists of lines without those that they begin and end with both; and how many they begin with."""
    same = 0
    while same < min(len(old), len(new)) and old[same] == new[same]:
        same += 1
    last = 0
    while last < min(len(old), len(new)) - same and old[-1 - last] == new[-1 - last]:
        last += 1
    return old[same : len(old) - last], new[same : len(new) - last], same


def groups(text: str, edits: List[Edit]) -> Iterator[List[Edit]]:
    """The edits whose lines are the same ones or follow each other."""
    here: List[Edit] = []
    for it in edits:
        if here and "\n" in text[here[-1].end : it.begin]:
            yield here
            here = []
        here.append(it)
    if here:
        yield here
