"""Stored states: each of states.txt is a file, a size and keys, and the rows that are then drawn; below a row how its cells are shown, where they aren't
plain."""
import os
from typing import Callable, Iterable, List, Tuple

from front.view.cells import Row, plain
from viewed import desks, fresh

STATES = os.path.join(os.path.dirname(os.path.realpath(__file__)), "states.txt")
# How many there are at least.
LEAST = 60
# Words of a style that change nothing on a terminal.
QUIET = {"plain", "name"}
State = Tuple[str, List[str]]


def stored() -> List[State]:
    """The stored states: heads, and rows."""
    found: List[State] = []
    with open(STATES, encoding="utf-8") as file:
        for line in file.read().split("\n"):
            if line.startswith("== "):
                found.append((line, []))
            elif line.startswith(("|", "!")):
                found[-1][1].append(line)
    return found


def styles_of(row: Row) -> str:
    """How the cells of a row are shown: from which column to which one, and the words of the style."""
    found: List[Tuple[int, int, str]] = []
    at = 0
    for it in row:
        style, end = " ".join(sorted({*it.style.split()} - QUIET)), at + len(it.text)
        if style and found and found[-1][1:] == (at, style):
            found[-1] = (found[-1][0], end, style)
        elif style:
            found.append((at, end, style))
        at = end
    return ", ".join(f"{begin}-{end} {style}" for begin, end, style in found)


def cells_of(row: Row) -> List[str]:
    """The lines of a row: its letters, and how they are shown."""
    styles = styles_of(row)
    return [f"|{plain(row)}|", *([f"! {styles}"] if styles else [])]


def drawn(head: str) -> Tuple[List[str], str]:
    """The rows of a state, and what is wrong with them."""
    where, _, script = head[3:].partition(":")
    name, size = where.split()
    columns, rows = map(int, size.split("x"))
    file, ksy = desks.example(name)
    with desks.opened(file, ksy, (rows, columns)) as desk:
        desks.play(desk, script)
        screen = desk.screen()
        return [line for it in screen.rows for line in cells_of(it)], fresh.wrong(desk, screen, ksy)


def compared(state: State) -> str:
    """What is wrong with a stored state."""
    head, wanted = state
    own, why = drawn(head)
    if own == wanted or why:
        return f"{head}: {why}" if why else ""
    at = next((it for it in range(min(len(own), len(wanted))) if own[it] != wanted[it]), 0)
    return f"{head}: row {at} is {own[at : at + 1]}, and not {wanted[at : at + 1]}"


def missing(states: List[State], names: Iterable[str]) -> str:
    """What is wrong with the list of states: too few, or an example that has none."""
    without = sorted({*names} - {head[3:].split()[0] for head, _ in states})
    return f"examples without a state: {' '.join(without)}" if without else "" if len(states) >= LEAST else f"there are {len(states)} states, and not {LEAST}"


def write(mapped: Callable) -> None:
    """Makes the stored states anew."""
    heads = [head for head, _ in stored()]
    with open(STATES, encoding="utf-8") as file:
        top = file.read().partition("\n== ")[0]
    made = mapped(drawn, heads)
    with open(f"{STATES}.new", "w", encoding="utf-8") as file:
        file.write(top + "\n" + "".join("\n".join([head, *rows]) + "\n\n" for head, (rows, _) in zip(heads, made)).rstrip("\n") + "\n")
    os.replace(f"{STATES}.new", STATES)
