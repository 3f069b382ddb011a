"""Descriptions that are right, each with one mistake at a place that a seed chooses."""
from __future__ import annotations

import random
import re
from typing import Callable, Dict, Iterator, List, NamedTuple, Optional, Sequence, Tuple

# What is written in place of what a pattern finds on a line, but for what its group `k` has; `{}` is what was there.
Change = Callable[[random.Random, str], str]
VALUE = r"(?:value|size|if|repeat-expr|repeat-until|pos): '?"


class Mutant(NamedTuple):
    """A mistaken text, and what kind of mistake it has."""

    kind: str
    text: str


def misspelt(dice: random.Random, word: str) -> str:
    """A word with two letters in the other order, one lost, one twice, or another one."""
    at = dice.randrange(len(word) - 1) if len(word) > 1 else 0
    return dice.choice((
        word[:at] + word[at + 1 : at + 2] + word[at] + word[at + 2 :], word[:at] + word[at + 1 :], word[: at + 1] + word[at:],
            word[: at + 1] + "x" + word[at + 2 :],
    ))


def other(*words: str) -> Change:
    """One of some texts."""
    return lambda dice, word: dice.choice(words).replace("{}", word)


KEY = r"(?<=[ {,])(?:id|type|size|size-eos|repeat|repeat-expr|repeat-until|if|value|pos|enum|contents|terminator|encoding|switch-on|cases|valid)(?=:)"
TOP = r"(?P<k>^ *)(?:meta|seq|types|instances|enums)(?=:)"
NAME = r"(?<=[ (.+*/'-])[a-z][a-z_0-9]{2,}(?=[ ).+*/'\n,}\]-]|$)"
CHANGES: Dict[str, Tuple[str, Change]] = {
    "a misspelt key": (KEY, lambda dice, word: misspelt(dice, word)), "a misspelt section": (TOP, lambda dice, word: misspelt(dice, word)),
    "another section": (TOP, lambda dice, word: word.rstrip("s") if word.endswith("s") else f"{word}s"),
    "an underscore in a key": (r"(?<=[ {])(?:size-eos|repeat-expr|repeat-until|switch-on|any-of)(?=:)", lambda dice, word: word.replace("-",
        dice.choice(("_", "", " ")))),
    "a capital in a key": (KEY, lambda dice, word: dice.choice((word.capitalize(), word.upper()))),
    "a lost quote": (r"['\"]", other("")), "a lost bracket": (r"[\[\]{}()]", other("")), "one bracket more": (r"[\]})]", other("{}{}")),
        "another bracket": (r"[\]})]", other("]", "}", ")")),
    "a lost colon": (r"(?<=\w):(?= |$)", other("", " =", ";")), "a lost space": (r"(?<=\w): (?=\S)", other(":")), "a lost dash": (r"^ *- ", lambda dice,
        word: word.replace("-", dice.choice(("", " ")))),
    "a dash without a space": (r"^ *- (?=\w)", lambda dice, word: word[:-1]), "another dash": (r"^ *-(?= )", lambda dice,
        word: word[:-1] + dice.choice(("*", "+", "–"))),
    "fewer spaces": (r"^ +(?=\S)", lambda dice, word: " " * max(0, len(word) - dice.randint(1, 3))), "more spaces": (r"^ *(?=\S)", lambda dice,
        word: word + " " * dice.randint(1, 3)),
    "a tab": (r"^ +(?=\S)", lambda dice, word: "\t" * max(1, len(word) // 2)), "a comma lost": (r",(?= )", other("", ";", ",,")),
    "a cast": (VALUE + r"(?=[a-z_])", other("{}(u4)", "{}(int)", "{}(uint8_t)", "{}(unsigned char)", "{}(s2)", "{}(float)")), "&&": (r" and ",
        other(" && ", " & & ")), "||": (r" or ", other(" || ")),
    "!": (r"(?<=[ '(])not (?=\w)|(?<=if: )(?=[a-z])", other("!", "! ")), "=": (r" == ", other(" = ", " === ", " eq ", " := ")), "!=": (r" != ",
        other(" <> ", " ne ", " is not ")),
    "another operator": (r" (?:[+*]|<<|>>) ", other(" ** ", " // ", " mod ", " div ", " shl ", " >>> ", " -> ", " xor ")),
        "another comparison": (r" (?:<=|>=) ", other(" =< ", " => ", " lt ", " <> ")),
    "another integer": (r"(?<=type: )u([1248])(?=[^\w]|$)", other("uint8_t", "uint16", "U4", "byte", "int", "dword", "u3", "u16", "i4", "u4 le", "u4_le",
        "le_u4", "{}[4]", "{} // x", "{};", "<H", "unsigned int", "char", "ulong", "{}:4", "{} (4)", "Uint32", "integer")),
    "another type": (r"(?<=type: )[a-z]\w{2,}(?=[^\w(]|$)", lambda dice,
        word: dice.choice((misspelt(dice, word), word.capitalize(), f"struct {word}", f"{word}_t", f"{word}()", word.replace("_", "-"), f"types.{word}",
            f"{word}[2]", f"{word}(1)"))),
    "a float": (r"(?<=type: )u([48])(?=[^\w]|$)", lambda dice, word: f"f{word[1:]}"), "low bits": (r"(?<=type: )b\d+(?=[^\w]|$)", other("{}le")),
    "no order": (r"^ *endian: .*\n?|(?<=[{ ])endian: ..,? ?", other("")), "another order": (r"(?<=endian: )[lb]e",
        other("big", "little", "LE", "bigendian", "l", ">", "le_be")),
    "another encoding": (r"(?<=encoding: )[\w-]+", other("UTF8", "utf_8", "UTF-16LE", "latin-1", "SJIS")),
        "a misspelt name": (r"(?P<k>[=+*/<>(] )[a-z][a-z_0-9]{2,}", lambda dice, word: misspelt(dice, word)),
    "a misspelt member": (r"(?<=\w\.)[a-z]\w{2,}", lambda dice, word: misspelt(dice, word)), "a misspelt size": (r"(?P<k>(?:size|pos|expr): )[a-z]\w{2,}",
        lambda dice, word: misspelt(dice, word)),
    "a capital name": (r"(?P<k>(?:size|pos|expr): )[a-z]\w{2,}", lambda dice,
        word: dice.choice((word.capitalize(), word.upper(), re.sub(r"_(\w)", lambda it: it[1].upper(), word)))),
    "a capital id": (r"(?<=id: )[a-z]\w{2,}", lambda dice, word: dice.choice((word.capitalize(), word.upper(), f"{word}[3]", f"{word}-a", f"3{word}"))),
    "this": (r"(?P<k>(?:size|pos|expr): )(?=[a-z])", other("this.", "self.", "$", "@", "_root", "_parent.")), "an arrow": (r"(?<=\w)\.(?=[a-z])",
        other("->", "::", ":", "..")),
    "an enum by a point": (r"::", other(".", ":", "->", "/")), "a misspelt enum": (r"(?<=enum: )\w{2,}", lambda dice,
        word: dice.choice((misspelt(dice, word), f"{word}s", word.capitalize()))),
    "a misspelt member of an enum": (r"(?<=\w::)[a-z]\w{2,}", lambda dice, word: misspelt(dice, word)),
        "a capital member of an enum": (r"(?<=\w::)[a-z]\w{2,}", lambda dice, word: word.upper()),
    "a number": (r"(?<=[ (])(?:0x[0-9a-f]+|[1-9]\d*)(?=[ )\n']|$)", other("{}u", "{}UL", "{}.0", "0{}", "{}h", "$1f", "0X1F", "0o17", "1,000", "4K",
        "{} bytes", "0x", "1e3", "'{}")),
    "a function": (VALUE + r"(?=[a-z_])", other("{}len(", "{}min(1, ", "{}int(", "{}sizeof(", "{}ReadUByte(", "{}strlen(")), "nothing": (VALUE + r".*",
        lambda dice, word: word.partition(":")[0] + ":"),
    "half of it": (r"(?<= )[+*<>=&-]+ .*$", lambda dice, word: word.split()[0]), "a comment": (r"$", other(" // x", " /* x */", ";", " -- x", "#x", ",")),
        "a bound": (r"(?P<k>(?:min|max): )", other("> ", ">= ", "< ")),
    "repeat": (r"(?<=repeat: )\w+", other("eof", "true", "3", "count", "while", "EOS", "until: _ == 0", "forever")),
        "a truth": (r"(?<=: )(?:true|false)(?= |\n|$|[,}])", other("yes", "True", "1", "no", "FALSE")),
    "contents": (r"(?<=contents: ).*", other("137", "0x89504e47", "[256]", "[0x89, 'a]", "{a: 1}", "'PK' 3", "b'PK'")),
        "a list": (r"(?P<k>(?:valid|value|if): ).*", other("[1, 2]", "1, 2", "1..2", "(1, 2)", "1 in [1, 2]")),
    "repeat-expr without repeat": (r"repeat: expr,? ?", other("")), "a case": (r"(?<=^            )[\w:'\"]+(?=: \w)",
        other("default", "else", "1, 2", "1-2", "ABC", '"ABC"', "abc")),
    "an entry of an enum": (r"(?<=^    )(?:0x[0-9a-f]+|\d+): [a-z]\w*", lambda dice,
        word: dice.choice((": ".join(reversed(word.split(": "))), "0o7: a", word.partition(":")[0].upper() + ": " + word.partition(": ")[2], f"- {word}",
            word.partition(": ")[2], f"a{word}"))),
}
LINES: Dict[str, Sequence[str]] = {
    "a foreign key": ("length: 4", "len: 4", "offset: 0", "count: 3", "process: zlib", "pad-right: 0", "parent: _root", "lenght: 10", "name: b", "endian: le",
        "note: some", "default: 1", "size: 3", "sizes: 3", "type: u1",
                      "value: 3", "pos: 4", "repeat: 3", "seq: []", "Type: u1", "bit-endian: le", "valid: {min 1}", "valid: min: 1", "doc: a: b",
                          "doc: 'it's'", "doc: [a] b", "doc: \"a\" b", "to-string: a", "contents: PK",
                      "enum: none", "if: yes", "comment: a", "terminator: 'a'", "terminator: [0, 0]", "encoding: UTF8", "repeat-count: 3", "doc: %d",
                          "doc: *a", "doc: @a", "doc: \"\\d\"", "min: 3"),
    "a line of its own": ("---", "foo", "// x", "%YAML", "a b", "- a", "size", "? a", "/* x */", "; x", "size 4", "size = 4", "imports: [a]", "}", "]", "&a",
        "<<: *a"),
}


def of(base: str, seed: int, count: int) -> Iterator[Mutant]:
    """Mutants of a text, each of another kind in turn."""
    dice = random.Random(seed)
    kinds = [*CHANGES, *LINES, "a line twice", "a line lost"]
    for number in range(count):
        kind = kinds[(number + seed) % len(kinds)]
        text = mutant(base, kind, dice)
        if text is not None and text != base:
            yield Mutant(kind, text)


def mutant(base: str, kind: str, dice: random.Random) -> Optional[str]:
    """A text with a mistake of a kind; None where it has no place for it."""
    rows = base.split("\n")
    if kind in CHANGES:
        pattern, new = CHANGES[kind]
        lines = [(at, row) for at, row in enumerate(rows) if not row.lstrip().startswith("#")]
        places = [(at, it.end("k") if "k" in it.groupdict() else it.start(), it.end()) for at, row in lines for it in re.finditer(pattern, row)]
        if not places:
            return None
        at, begin, end = dice.choice(places)
        rows[at] = rows[at][:begin] + new(dice, rows[at][begin:end]) + rows[at][end:]
        return "\n".join(rows)
    at = dice.choice([at for at, row in enumerate(rows) if row.strip() and not row.lstrip().startswith("#")] or [0])
    if kind == "a line twice":
        return "\n".join([*rows[: at + 1], *rows[at:]])
    if kind == "a line lost":
        return "\n".join([*rows[:at], *rows[at + 1 :]])
    front = re.match(r" *(?:- )?", rows[at])[0]
    return "\n".join([*rows[: at + 1], " " * len(front) + dice.choice(LINES[kind]), *rows[at + 1 :]])
