"""The table of what is kept of random layouts of bits: questions at random paths, random edits, and `stats` behind each.

The layouts and the lines are made as in bits.py. The replies are those of tools/second, which keeps nothing: it evaluates each question from
nothing and counts by the definitions."""

import bits
from session import Session, describe

SEED = 480
ROWS = 40
ROUNDS = 9


def edit(dice, layout, data):
    """A random edit of some bytes: those near the first come most often, since a layout begins there."""
    fields = [(path, one.width) for path, one in bits.all_found(layout.read(data), "/") if one.width is not None]
    at, choice = dice.below(1 + dice.below(1 + len(data))), dice.below(9)
    if fields and choice < 3:
        path, width = dice.of(fields)
        return f"put {path} {dice.field(width)}"
    if choice < 5 and at < len(data):
        return f"set {at} {dice.bytes(1).hex()}"
    if choice < 7 and at < len(data):
        return f"del {at} 1"
    return f"ins {at} {dice.bytes(1).hex()}" if choice < 8 else f"app {dice.bytes(1).hex()}"


def row(dice, number):
    """The row of a layout."""
    layout = bits.Layout(dice)
    data = dice.bytes(2 + dice.below(22))
    text = list(layout.lines())
    yield f"== what is kept of layout {number}"
    yield from text
    yield f"-- file {data.hex()}"
    session = Session(describe("".join(f"{line}\n" for line in text).encode())[0], data)
    for _ in range(ROUNDS):
        paths = ["/"] + [path for path, _ in bits.all_found(layout.read(bytes(session.data)), "/")]
        asked = [f"{dice.of(['get', 'get', 'get', 'at', 'ls'])} {dice.of(paths)}" for _ in range(1 + dice.below(2))]
        for line in [*asked, "stats", edit(dice, layout, bytes(session.data)), "stats"]:
            yield line
            yield f"> {session.line(line.encode())}"


def table():
    """The table."""
    dice = bits.Dice(SEED)
    yield "# What is kept of random layouts of bits, bytes, lists, windows and objects, behind questions and edits."
    yield "# Values: by tools/second, an interpreter of its own, which keeps nothing and to which types of bits were added later (its README); lines made by tools/rows/kept.py."
    for number in range(1, ROWS + 1):
        yield from row(dice, number)


# The tables, by the names of their files.
TABLES = {"dialogues_bits_kept.txt": table}
