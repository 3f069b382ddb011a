"""Rows of cells: texts with styles, and as wide as they must be. Nothing here knows a terminal."""
from dataclasses import dataclass
from typing import Iterable, List, Tuple

from front.texts import columns, visible

# What is cut off ends with this.
CUT = "~"


@dataclass(frozen=True)
class Span:
    """Some letters of a row, and the style that they have."""

    text: str
    style: str = "plain"


Row = Tuple[Span, ...]


def cut(text: str, width: int) -> str:
    """A text as it may be shown, or as much of it as n columns hold, with a mark where it was cut."""
    text = visible(text[: max(0, width) * 2 + 2])
    if columns(text) <= width:
        return text
    taken, room = [], width - len(CUT)
    for it in text:
        room -= columns(it)
        if room < 0:
            break
        taken.append(it)
    return "".join(taken) + CUT if width > 0 else ""


def ending(text: str, width: int) -> str:
    """A text, or as much of its end as n columns hold, with a mark where it was cut; always some of it."""
    return text if columns(text) <= width else CUT + text[len(text) - max(width, 1) + 1 :]


def fitted(spans: Iterable[Span], width: int, style: str = "plain") -> Row:
    """Spans as a row that is n columns wide: cut, with a mark there, or with spaces behind them."""
    shown = [(visible(it.text[: 2 * max(0, width) + 2]), it.style) for it in spans if it.text]
    if sum(columns(text) for text, _ in shown) <= width:
        shown.append((" " * (width - sum(columns(text) for text, _ in shown)), style))
        return tuple(Span(*it) for it in shown if it[0])
    found: List[Span] = []
    for text, own in shown:
        taken = cut(text + CUT, width) if columns(text) >= width else text
        found.append(Span(taken, own))
        width -= columns(taken)
        if columns(text) > columns(taken) or taken.endswith(CUT) and width <= 0:
            break
    return tuple(it for it in found if it.text) + ((Span(" " * width, style),) if width > 0 else ())


def plain(row: Row) -> str:
    """The letters of a row."""
    return "".join(it.text for it in row)


def flowed(pieces: Iterable[str], width: int) -> List[str]:
    """Lines that pieces fill one after the other, each piece on one line, with two spaces between them."""
    lines: List[str] = []
    for it in pieces:
        if lines and columns(lines[-1]) + 2 + columns(it) <= width:
            lines[-1] += f"  {it}"
        else:
            lines.append(it)
    return lines


def held(text: str, width: int) -> int:
    """How many letters of a text n columns hold; at least one."""
    room = width
    for count, it in enumerate(text):
        room -= columns(it)
        if room < 0:
            return max(1, count)
    return len(text)


def wrapped(text: str, width: int, most: int) -> List[str]:
    """A text in lines of a width, which are broken at spaces where there are some; at most n of them."""
    lines: List[str] = []
    while text and len(lines) < most:
        if columns(text) <= width or len(lines) + 1 == most:
            return [*lines, text]
        most_held = held(text, width)
        end = text.rfind(" ", most_held // 2, most_held + 1)
        end = end if end > 0 else most_held
        lines.append(text[:end])
        text = text[end:].lstrip()
    return lines
