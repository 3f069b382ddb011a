"""The table of what is kept of lists of many elements of one size, or that say it: questions at random elements, random edits, and `stats` behind each.

An engine may keep the nodes of such lists without slots, where there are 1,024 at least. The replies are those of tools/second, which keeps nothing: it
evaluates each question from nothing and counts by the definitions."""

import bits
from session import Session, describe

SEED = 770
ROWS = 18
ROUNDS = 7

# What each description is called, its lines, the bytes of its file as words, and the paths that are asked.
LISTS = (
    ("bytes to the end", ["meta: {id: t}", "seq: [{id: n, type: u1}, {id: pad, size: n}, {id: xs, type: u1, repeat: eos}]"], "02 aa bb 600*07", ["/xs/{}", "/n"]),
    ("integers to the end", ["meta: {id: t, endian: be}", "seq: [{id: n, type: u1}, {id: pad, size: n}, {id: xs, type: u4, repeat: eos}]"], "01 aa 560*01020304 05 06",
     ["/xs/{}", "/pad"]),
    ("integers by a count", ["meta: {id: t, endian: le}", "seq:", "  - {id: n, type: u1}", "  - {id: pad, size: n}", "  - {id: m, type: u1}",
                             "  - {id: xs, type: u2, repeat: expr, repeat-expr: 'm * 8'}", "  - {id: last, type: u1}", "instances:", "  sum: {value: 'xs[5] + last'}"],
     "00 46 560*0201 09 0a", ["/xs/{}", "/last", "/sum"]),
    ("objects of two integers", ["meta: {id: t, endian: be}", "seq: [{id: n, type: u1}, {id: pad, size: n}, {id: xs, type: item, repeat: eos}]", "types:", "  item:",
                                 "    seq: [{id: a, type: u1}, {id: b, type: u2}]", "    instances: {c: {value: a + b}}"], "00 210*010203 04",
     ["/xs/{}/a", "/xs/{}/b", "/xs/{}/c", "/xs/{}"]),
    ("a list in a window", ["meta: {id: t, endian: be}", "seq: [{id: n, type: u1}, {id: body, size: n * 64, type: inner}, {id: tail, type: u1}]", "types:",
                            "  inner: {seq: [{id: xs, type: u2, repeat: eos}]}"], "11 544*0102 03 04", ["/body/xs/{}", "/tail"]),
    ("two lists", ["meta: {id: t}", "seq: [{id: xs, type: u1, repeat: expr, repeat-expr: 520}, {id: ys, type: u1, repeat: eos}]"], "1040*05", ["/xs/{}", "/ys/{}"]),
    ("items to the end", ["meta: {id: t}", "seq: [{id: n, type: u1}, {id: pad, size: n}, {id: xs, type: item, repeat: eos}]", "types:", "  item:",
                          "    seq: [{id: len, type: u1}, {id: body, size: len}]"], "01 aa 110*000103", ["/xs/{}/len", "/xs/{}/body", "/xs/{}", "/xs"]),
    ("items by a count", ["meta: {id: t, endian: be}", "seq:", "  - {id: n, type: u1}", "  - {id: xs, type: item, repeat: expr, repeat-expr: 'n * 4'}",
                          "  - {id: last, type: u1}", "types:", "  item:", "    seq: [{id: kind, type: u1}, {id: len, type: s2}, {id: body, size: len}]"],
     "2a 90*0100000200010b 09 0a", ["/xs/{}/kind", "/xs/{}/body", "/xs/{}/len", "/last"]),
    ("bytes, and elements far behind them", ["meta: {id: t}", "seq: [{id: n, type: u1}, {id: xs, type: u1, repeat: eos}]"], "02 03 04 05", ["/xs/{}", "/xs/1{}", "/n"]),
)


def bytes_of(words):
    """The bytes that words of a row write: hex digits, or `N*` before some."""
    parts = (word.split("*") for word in words.split())
    return b"".join(bytes.fromhex(part[-1]) * (int(part[0]) if len(part) == 2 else 1) for part in parts)


def asked(dice, paths):
    """A random question."""
    element = dice.of([0, 1, dice.below(300), dice.below(700), 519, 559, 599, 600])
    return f"{dice.of(['get', 'get', 'get', 'at'])} {dice.of(paths).format(element)}"


def edit(dice, data):
    """A random edit of a byte: of the first ones most often, which move all places."""
    at, choice = dice.of([0, dice.below(len(data)), len(data) - 1 - dice.below(8)]), dice.below(8)
    if choice < 2:
        return f"set {at} {dice.below(6):02x}"
    if choice < 4:
        return f"ins {at} {dice.bytes(1).hex()}"
    return f"del {at} 1" if choice < 6 else f"app {dice.bytes(1 + dice.below(3)).hex()}"


def row(dice, number):
    """The row of a list."""
    name, text, words, paths = LISTS[number % len(LISTS)]
    yield f"== {name}, {number}"
    yield from text
    yield f"-- file {words}"
    session = Session(describe("".join(f"{line}\n" for line in text).encode())[0], bytes_of(words))
    for _ in range(ROUNDS):
        questions = [asked(dice, paths) for _ in range(1 + dice.below(3))]
        for line in [*questions, "stats", edit(dice, bytes(session.data)), "stats"]:
            yield line
            yield f"> {session.line(line.encode())}"


def table():
    """The table."""
    dice = bits.Dice(SEED)
    yield "# What is kept of lists of many elements of one size, or that say it, behind questions and edits."
    yield "# Values: by tools/second, an interpreter of its own, which keeps nothing; lines made by tools/rows/folded.py."
    for number in range(ROWS):
        yield from row(dice, number)


# The tables, by the names of their files.
TABLES = {"dialogues_folded.txt": table}
