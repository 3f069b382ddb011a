"""Tables of what the parts of the view yield that need no session: rows of cells, typed lines, numbers, layouts of bytes, names in expressions."""
import struct
from typing import Iterator, List, Optional, Tuple

from front.texts import columns
from front.view import about, readings
from front.view.cells import Span, cut, fitted, flowed, plain, wrapped
from front.view.draw import last_rows
from front.view.octets import Grid, between
from front.view.sources import closing
from front.view.state import State, Typed, fronts, parent

CUTS = [("abc", 3, "abc"), ("abcd", 3, "ab~"), ("abcd", 1, "~"), ("abcd", 0, ""), ("", 0, ""), ("a\nb", 20, "a\\u000ab"), ("ab\x1b", 4, "ab\\~"),
        ("中文字", 6, "中文字"), ("中文字", 5, "中文~"), ("中文字", 4, "中~"), ("e\u0301e\u0301x", 2, "e\u0301~"), ("\udcff", 4, "\\xff")]
# Texts, and the columns of a terminal that they take: marks of Thai and Hindi and the rest of a Korean syllable have none of their own.
WIDTHS = [("abc", 3), ("中文", 4), ("e\u0301", 1), ("\u0e2a\u0e27\u0e31\u0e2a\u0e14\u0e35", 4), ("\u0928\u0941", 1), ("\u1112\u1161\u11ab", 2),
          ("\u2764\ufe0f", 1), ("a\u20dd", 1)]
ROWS = [(["ab", "cd"], 6, "abcd  "), (["ab", "cd"], 4, "abcd"), (["ab", "cd"], 3, "ab~"), (["abc"], 2, "a~"), (["", "x"], 1, "x"), ([], 3, "   "),
        (["ab", "cd", "e"], 4, "abc~")]
FLOWS = [(["aa", "bb", "cc"], 6, ["aa  bb", "cc"]), (["aa", "bb"], 5, ["aa", "bb"]), ([], 5, []), (["long one"], 3, ["long one"])]
# Lines of keys, and the text and the cursor after them.
TYPED = [("a b", "ab", 2), ("a b left c", "acb", 2), ("a b home c", "cab", 1), ("a b home delete", "b", 0), ("a b backspace", "a", 1), ("backspace", "", 0),
         ("a left left right right right b", "ab", 2), ("a b left ctrl-u", "b", 0), ("a up tab b", "ab", 2), ("a home end b", "ab", 2), ("ä", "ä", 1),
         ("delete", "", 0)]
# Typed texts, the place of the cursor in them, and what a row of 12 columns shows of them, with the cursor's column.
SHOWN = [("abcdefghij", 10, "x: cdefghij ", 11), ("abcdefghij", 0, "x: abcdefgh ", 3), ("中文字符中", 5, "x: 文字符中 ", 11), ("中文字符中", 1, "x: 中文字符 ", 5),
         ("a中文字符b", 6, "x: 文字符b  ", 10), ("", 0, "x:          ", 3)]
# The first bytes of a file, a form and an order, and the number: by hand, and by IEEE 754.
NUMBERS = [("ff", "u1", "le", "255"), ("ff", "s1", "be", "-1"), ("8000", "u2", "be", "32768"), ("8000", "u2", "le", "128"), ("0080", "s2", "le", "-32768"),
           ("01020304", "u4", "be", "16909060"), ("01020304", "u4", "le", "67305985"), ("ffffffff", "s4", "le", "-1"), ("3f800000", "f4", "be", "1"),
           ("0000c03f", "f4", "le", "1.5"), ("4029000000000000", "f8", "be", "12.5"), ("000000000000f0bf", "f8", "le", "-1.0"),
           ("7ff0000000000000", "f8", "be", "inf"),
           ("ffffffffffffffff", "u8", "le", "18446744073709551615"), ("8000000000000000", "s8", "be", "-9223372036854775808"), ("ff", "u2", "le", None),
           ("", "u1", "be", None)]
BITS = [(0b10100101, 0, 8, "10100101"), (0b10100101, 0, 1, "[1]0100101"), (0b10100101, 3, 2, "101[00]101"), (0b10100101, 4, 4, "1010[0101]")]
TEXTS = [(b"ab\n\x00", "ab.."), ("ä中".encode(), "ä中"), (b"\xff\xfe", ".."), (b"\xe4\xb8", ".")]
PLACES = [("at 18 22", "at 18 22 (0x12 0x16)", (0, 8)), ("at 46.1 46.2", "at 46.1 46.2 (0x2e.1 0x2e.2)", (1, 1)), ("at 0.4 2", "at 0.4 2 (0x0.4 0x2)", (4, 4)),
          ("calculated", "calculated", (0, 8)), ("at 3 3.3", "at 3 3.3 (0x3 0x3.3)", (0, 3)), ("at 5 5", "at 5 5 (0x5 0x5)", (0, 8))]
# Widths, and how many bytes of a file of 350 are in a row.
GRIDS = [(200, 16), (69, 16), (68, 8), (37, 8), (36, 4), (1, 4)]
# The first byte that is shown, the cursor, and the first byte then: rows of 8 bytes, 6 of them.
TOPS = [(0, 0, 0), (0, 47, 0), (0, 48, 8), (8, 7, 0), (0, 480, 464), (480, 0, 0), (480, 400, 384), (3, 3, 0), (16, 15, 8)]
BRACKETS = [(4, 1, (4, 6), "["), (6, 3, (4, 6), "]"), (5, 2, (4, 6), " "), (4, 0, (4, 6), "["), (6, 0, (4, 6), " "), (7, 3, (4, 6), " "), (4, 1, (4, 4), " "),
            (8, 8, (0, 8), "]")]
WRAPPED = [("aa bb cc", 5, 2, ["aa bb", "cc"]), ("aaaaaaaa", 3, 2, ["aaa", "aaaaa"]), ("aa bb", 9, 2, ["aa bb"]), ("", 5, 2, []),
           ("aa bb cc dd", 5, 1, ["aa bb cc dd"]), ("中文字符中文", 5, 2, ["中文", "字符中文"]), ("中文 字符", 5, 2, ["中文", "字符"]), ("中文", 1, 2, ["中", "文"])]
KEYS = [("min: 5, max: _io.size", "5, _io.size"), ("expr: _ > min", "_ > min"), ("a ? b : c", "a ? b : c"), ("kind::max", "kind::max")]
CLOSINGS = [("[a]", 0, 2), ("[a[b]c]d", 0, 6), ("[a", 0, -1), ("x[a]", 1, 3)]


def typed(line: str) -> Typed:
    """A line after keys."""
    found = Typed("x")
    for it in line.split():
        found = found.after(it)
    return found


def shown(text: str, at: int) -> Tuple[str, Optional[int]]:
    """The row of a text that is typed, and the column of the cursor."""
    rows, column = last_rows(State(columns=12, typed=Typed("x", text, at)), False, 3)
    return plain(rows[0]), column


def different(what: str, pairs: List[tuple]) -> Iterator[str]:
    """For each pair of values nothing, or that they differ."""
    for own, wanted in pairs:
        yield "" if own == wanted else f"{what}: {own!r} isn't {wanted!r}"


def trials() -> Iterator[str]:
    """All trials of the tables."""
    yield from different("cut", [(cut(text, width), wanted) for text, width, wanted in CUTS])
    yield from different("a cut is no wider", [(columns(cut(text, width)) <= width, True) for text, width, _ in CUTS])
    yield from different("columns", [(columns(text), wanted) for text, wanted in WIDTHS])
    yield from different("fitted", [(plain(fitted([Span(it) for it in spans], width)), wanted) for spans, width, wanted in ROWS])
    yield from different("flowed", [(flowed(pieces, width), wanted) for pieces, width, wanted in FLOWS])
    yield from different("typed", [((typed(line).text, typed(line).at), (text, at)) for line, text, at in TYPED])
    yield from different("shown while typed", [(shown(text, at), (wanted, column)) for text, at, wanted, column in SHOWN])
    offered = Typed("x", "old", 3, True)
    yield from different("offered", [(offered.after("a").text, "a"), (offered.after("left").after("a").text, "olad"), (offered.after("backspace").text, "ol")])
    yield from different("numbers", [(readings.value_of(bytes.fromhex(some), form, order), wanted) for some, form, order, wanted in NUMBERS])
    yield from different("bits", [(readings.bits_of(byte, first, count), wanted) for byte, first, count, wanted in BITS])
    yield from different("texts", [(readings.text_of(some), wanted) for some, wanted in TEXTS])
    yield from different("all readings", [(readings.lines_of(struct.pack("<d", 1.5) + bytes(8), 80)[3],
                                           "le u8 4609434218613702656  s8 4609434218613702656  f8 1.5"),
                                          (len(readings.lines_of(b"\xff" * 8, 80)), 5), (max(map(len, readings.lines_of(b"\x80" * 8, 80))) <= 80, True)])
    yield from different("places", [(about.place_of(told), wanted) for told, wanted, _ in PLACES])
    yield from different("bits of places", [(about.bits_at(told), wanted) for told, _, wanted in PLACES])
    yield from different("grids", [(Grid.of(350, width, 6).row, wanted) for width, wanted in GRIDS])
    yield from different("tops", [(Grid(4, 8, 6).top(top, place), wanted) for top, place, wanted in TOPS])
    yield from different("brackets", [(between(place, at, marked).text, wanted) for place, at, marked, wanted in BRACKETS])
    yield from different("wrapped", [(wrapped(text, width, most), wanted) for text, width, most, wanted in WRAPPED])
    yield from different("keys of valid", [(about.strip_keys(text), wanted) for text, wanted in KEYS])
    yield from different("closing", [(closing(text, at), wanted) for text, at, wanted in CLOSINGS])
    yield from different("paths", [(parent("/"), "/"), (parent("/a"), "/"), (parent("/a/0"), "/a"), (fronts("/a/0"), frozenset({"/", "/a"})),
                                   (fronts("/"), frozenset())])
