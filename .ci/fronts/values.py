"""front/words as a table, front/edits beside plain lists, front/texts as a table."""
import random
from typing import Callable, Dict, List, Tuple

from front import texts, words
from front.edits import Edit, Edits
from front.words import Misread

Check = Callable[[], str]
UNCLOSED, ESCAPE, SPACE = "a quote isn't closed", "in quotes write", "a space is missing"
# A line, and its words: of a quoted one the bytes; or how it is refused.
WORDS: List[Tuple[str, object]] = [
    ("", []), (" \t\r", []), ("a", ["a"]), ("a b", ["a", "b"]), ("  a \t\t b\t", ["a", "b"]), ("a\rb\r", ["a", "b"]), ("a\x0bb a\xa0b", ["a\x0bb", "a\xa0b"]), ("a\u2003b", ["a\u2003b"]),
    ('"a b"', [b"a b"]), ('"A  B" c', [b"A  B", "c"]), ('"\t"', [b"\t"]), ('""', [b""]), ('"" ""', [b"", b""]), ('a"b', ['a"b']), ('a"b c"', ['a"b', 'c"']),
    (r'"\\"', [b"\\"]), (r'"\""', [b'"']), (r'"\n\r\t\b\f\0"', [b"\n\r\t\b\f\0"]), (r'"\x00\xff\x1F"', [b"\x00\xff\x1f"]), (r'"\u00e4\u0000"', ["\u00e4\0".encode()]), ('"\u00e4\u4e2d"', ["\u00e4\u4e2d".encode()]),
    ('"\udcff"', [b"\xff"]), (r'"\\n"', [b"\\n"]), (r'"\x4142"', [b"A42"]), ("\\n", ["\\n"]), ("'a b'", ["'a", "b'"]), ("# a", ["#", "a"]), ("\0 a", ["\0", "a"]),
    ('"', UNCLOSED), ('"a', UNCLOSED), ('a "b', UNCLOSED), (r'"\"', UNCLOSED), ('"a" "', UNCLOSED), ('"a"b', SPACE), ('"a""b"', SPACE),
    (r'"\a"', ESCAPE), ('"\\', ESCAPE), (r'"\x1"', ESCAPE), (r'"\xg1"', ESCAPE), (r'"\u12"', ESCAPE), (r'"\u123"', ESCAPE), ('"\\x\u0661\u0662"', ESCAPE), (r'"\X41"', ESCAPE), (r'"\ "', ESCAPE), (r'"\'"', ESCAPE),
    (r'"\ud800"', "no letter"), (r'"\udfff"', "no letter"), (r'"\ud7ff\ue000"', ["\ud7ff\ue000".encode()]),
]
MOST = (1 << 64) - 1
# A word, and the place that it writes.
PLACES: List[Tuple[str, "int | None"]] = [
    ("0", 0), ("00", 0), ("12", 12), (str(MOST), MOST), (str(MOST + 1), None), ("9" * 20, None), ("0" * 20, 0), ("0" * 21, None), ("1" * 21, None), ("9" * 5000, None), ("0x1f", 31), ("0X1F", 31),
    ("0x", None), ("0x" + "f" * 16, MOST), ("0x" + "0" * 16, 0), ("0x" + "0" * 17, None), ("0x" + "f" * 5000, None), ("-1", None), ("-0x1", None), ("+1", None), ("\u00b2", None), ("\u0664", None), ("1\u00b2", None),
    ("0x\uff11", None), ("1_0", None), ("1.0", None), ("1e3", None), ("", None), ("0b1", None), ("1\0", None), ("x1f", None), ("1 ", None), ("1\n", None), ("0x1\n", None),
]
# The words of a line, and the digits of their bytes; or how they are refused.
BYTES: List[Tuple[str, str]] = [
    ("", ""), ("00", "00"), ("0x1f", "1f"), ("0X1f", "1f"), ("01 02", "0102"), ("0x01 0x02", "0102"), ('"A  B"', "41202042"), ('"A" 00 "B"', "410042"), ("0102 03", "010203"), ("AbCd", "AbCd"), ('""', ""),
    ("0", "odd number"), ("123", "odd number"), ("0x1", "odd number"), ("01 2", "odd number"), ("zz", "zz"), ("0x", ""), ("\u00b2\u00b2", "\u00b2\u00b2"), ("\u0661\u0661", "\u0661\u0661"), ('"0"', "30"), ("\0", "\0"),
]
# A line with `save`, and the name of its file; or how it is refused.
NAMES: List[Tuple[str, str]] = [
    ("save", ""), ("save ", ""), ("save a", "a"), ("save a  b", "a  b"), ("save \ta\tb ", "a\tb"), ('save "a b "', "a b "), ('save ""', ""), ('save "a" b', '"a" b'), ("save a'b", "a'b"), (r"save a\b", r"a\b"),
    (r'save "a\x20b"', "a b"), ("save a\0b", "no byte 0"), (r'save "\0"', "no byte 0"), ('save "a', UNCLOSED), ("save \u00e4\udcff", "\u00e4\udcff"), (r'save "\xff"', "\udcff"), ("save -- a", "-- a"), ("save #", "#"),
]
# A line, and whether ksv answers it.
REPLIES = [("", False), (" \t", False), ("\r", False), (" \r", False), ("#", False), (" # a", False), ("a", True), ("a\r", True), ("\0", True), ("\r#", True), ("\x0b", True), ("\xa0", True), ("a#", True), ("\r\r", True)]
SHOWN = [
    ("a b", "a b"), ("\x1b[2J", "\\u001b[2J"), ("\r\n\t", "\\u000d\\u000a\\u0009"), ("\x9b", "\\u009b"), ("\u202e", "\\u202e"), ("\udcff", "\\xff"), ("\ud800", "\\ud800"), ("\u00e4\u4e2d", "\u00e4\u4e2d"),
    ("\u00ad", "\\u00ad"), ("\u200b", "\\u200b"), ("\\n", "\\n"), ("", ""),
]
COLUMNS = [("", 0), ("abc", 3), ("\u00e4", 1), ("a\u0308", 1), ("\u4e2d\u6587", 4), ("\uff21", 2), ("\uff71", 1), ("\u1100", 2), ("\U0001f600", 2)]
CUTS = [("abc", 3, "abc"), ("abcd", 3, "abc .."), ("\u4e2d\u6587", 3, "\u4e2d .."), ("\u4e2d\u6587", 4, "\u4e2d\u6587"), ("\u4e2d", 1, " .."), ("a\u0308b", 2, "a\u0308b"), ("a\u0308bc", 2, "a\u0308b .."), ("", 0, "")]


def told(function: Callable[[], object]) -> object:
    """What a function gives, or how it refuses."""
    try:
        return function()
    except Misread as error:
        return error


def table(rows: List[tuple], function: Callable[[str], object]) -> Check:
    """Each row's text gives what is beside it, or is refused so."""

    def check() -> str:
        """What is wrong with it."""
        for text, wanted in rows:
            own = told(lambda text=text: function(text))
            if str(wanted) not in str(own) if isinstance(own, Misread) else own != wanted:
                return f"{text[:60]!r}: {own!r}, and not {wanted!r}"
        return ""

    return check


def words_of(line: str) -> List[object]:
    """The words of a line, whose texts are where they begin and end."""
    found = words.words_of(line)
    if any(line[it.begin : it.end] != it.text for it in found):
        raise ValueError(f"{line!r}: words that aren't where they are")
    return [it.text if it.quoted is None else it.quoted for it in found]


def cut() -> str:
    """A text and as much of it as some columns hold."""
    return "".join(f"{text!r}: {texts.cut(text, width)!r}\n" for text, width, wanted in CUTS if texts.cut(text, width) != wanted)


def walk() -> str:
    """Edits beside two plain lists, in random walks."""
    for seed in range(100):
        source, edits = random.Random(seed), Edits()
        done, undone, count, saved = [], [], 0, 0  # type: list, list, int, int
        for number in range(60):
            kind = source.choice("eeeuuurrs")
            if kind == "e":
                count += 1
                edits, done, undone = edits.made(Edit(f"e{number}", (f"x{number}", f"y{number}"))), [*done, (number, count)], []
            elif kind == "u" and done:
                edits, done, undone = edits.taken_back(), done[:-1], [*undone, done[-1]]
            elif kind == "r" and undone:
                edits, done, undone = edits.again(), [*done, undone[-1]], undone[:-1]
            elif kind == "s":
                saved = done[-1][1] if done else 0
                edits = edits.marked_saved(edits.version)
            own = [it.edit.line for it in edits.holding()], list(edits.lines()), edits.num_undone(), edits.is_saved(), edits.version
            now = done[-1][1] if done else 0
            wanted = [f"e{it}" for it, _ in done], [line for it, _ in done for line in (f"x{it}", f"y{it}")], len(undone), now == saved, now
            if own != wanted:
                return f"walk {seed}, step {number}: {own}, and not {wanted}"
    return ""


CHECKS: Dict[str, Check] = {
    "words of lines": table(WORDS, words_of),
    "places": table(PLACES, lambda text: words.place(words.Word(text, None, 0, len(text)))),
    "bytes": table(BYTES, lambda text: words.bytes_of(words.words_of(text))),
    "names of files": table(NAMES, lambda text: words.name_of(text, words.words_of(text))),
    "lines with a reply": table(REPLIES, words.has_reply),
    "shown texts": table(SHOWN, texts.visible),
    "columns": table(COLUMNS, texts.columns),
    "texts that are cut": cut,
    "edits": walk,
}
