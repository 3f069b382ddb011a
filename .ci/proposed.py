"""What hints propose, made: the texts that come out where a person does what a hint says, as it says it.

`alternatives` has for a refusal each thing that its hint proposes; each of them is a few texts, of which one at least must not be refused at the refused line any
more: most are one text, others differ in where a word is that is on the line twice. Each kind of hint is in MADE, or in SAID with the reason why nothing is made.
"""
from __future__ import annotations

import re
from typing import Callable, Dict, Iterator, List, NamedTuple, Optional, Tuple

from front.hints import formulas, schema
from front.hints.kinds import KINDS, Hint
from front.hints.near import plain
from front.hints.node import Node
from front.hints.outline import COMMENT, Outline
from front.hints.places import Place, Places
from front.mend import change
from front.mend.arrays import one_by_one
from front.mend.change import Change
from front.mend.enums import members
from front.mend.said import values
from front.mend.whole import Whole, extent
from front.mend.written import scalar, without

Texts = List[str]


class Case(NamedTuple):
    """A refused text, the line and the code, its hint, and what is filled into that."""

    text: str
    line: int
    code: str
    hint: Hint
    said: Dict[str, str]
    told: str

    @property
    def rows(self) -> List[str]:
        """The lines of the text."""
        return self.text.split("\n")

    @property
    def row(self) -> str:
        """The refused line."""
        return self.rows[self.line - 1]

    @property
    def places(self) -> Places:
        """What begins on the refused line."""
        return Places(Outline(self.text), self.line)

    def at(self, line: int) -> Case:
        """The same of another line."""
        return self._replace(line=line)

    def with_row(self, *rows: str) -> str:
        """The text with other lines for the refused one."""
        return "\n".join([*self.rows[: self.line - 1], *rows, *self.rows[self.line :]])


def said(hint: Hint) -> Dict[str, str]:
    """What is filled into a hint, that of a row of the page too."""
    kind = KINDS[hint.kind]
    if not kind.what:
        return values(hint)
    more = re.sub(r"\\\{(\w+)\\\}", r"(?P<\1>.*)", re.escape(kind.more))
    found = re.fullmatch(re.escape(kind.text) + more, hint.text) if kind.more else None
    return found.groupdict() if found else {}


def where(case: Case) -> int:
    """The line that a hint names, or the refused one."""
    found = re.search(r"line (\d+)", case.said.get("where", "") or ("line " + case.said.get("line", "-")))
    return int(found[1]) if found else case.line


# Keys and values in a text that can be read as YAML


def pairs(case: Case, key: str) -> List[Place]:
    """The places of a key on the line."""
    return [it for it in case.places.keys if it.key == key]


def put(text: str, begin: int, end: int, new: str) -> str:
    """A text with another part."""
    return text[:begin] + new + text[end:]


def value(case: Case, key: str, new: str) -> Texts:
    """The value of a key on the line is another."""
    found = []
    for it in pairs(case, key):
        begin, end = extent(case.text, it.value)
        is_empty = begin == end or begin < it.at + len(key)
        found.append(put(case.text, it.at + len(key), it.at + len(key) + 1, f": {new}") if is_empty else put(case.text, begin, end, new))
    return found


def renamed(case: Case, key: str, new: str) -> Texts:
    """A key on the line is another."""
    quotes = [1 if it.is_quoted else 0 for it in pairs(case, key)]
    return [put(case.text, it.at, it.at + len(key) + 2 * count, new) for it, count in zip(pairs(case, key), quotes)]


def dropped(case: Case, *keys: str) -> Texts:
    """The mapping that has a key of the line without that key, and without others."""
    found = []
    near = [it.around for it in case.places.keys] + [it.node for it in case.places.starts] + [it.value for it in case.places.keys if it.value.kind == "map"]
    for it in [one.around for key in keys for one in pairs(case, key)][:1] or [it for it in near if any(it.has(key) for key in keys)][:1]:
        made = without(case.text, it, keys, False)
        found += [change.applied(case.text, Change("", tuple(made[0])))] if made else []
        if not made and it.is_flow:
            found.append(put(case.text, it.at, it.stop, "{}"))
    return found


def added(case: Case, pair: str, of: Optional[Node] = None) -> Texts:
    """The mappings that begin on the line, or have a key on it, with one more pair in front."""
    nodes = [of] if of else [it.node for it in case.places.starts] or [it.around for it in case.places.keys]
    found = []
    for it in nodes:
        if it.is_flow:
            found.append(put(case.text, it.at + 1, it.at + 1, f"{pair}, " if it.pairs else pair))
        else:
            begin = case.text.rfind("\n", 0, it.at) + 1
            found.append(put(case.text, it.at, it.at, f"{pair}\n{' ' * (it.at - begin)}"))
    return found


def beside(case: Case, key: str, pair: str) -> Texts:
    """The mapping that has a key of the line with one more pair in front."""
    return [it for one in pairs(case, key) for it in added(case, pair, one.around)]


# Words in expressions, types, enums and lines


def in_text(case: Case, old: str, new: str) -> Texts:
    """A word of an expression, a type or an enum that begins on the line is another, wherever it is."""
    word = re.compile((r"(?<![\w$@])" if old[:1].isalnum() or old[:1] == "_" else "") + re.escape(old) + (r"(?!\w)" if old[-1:].isalnum() else ""))
    found = []
    places = case.places
    enums = [(it.value.text, "enum", it.value, it) for it in places.keys if it.key == "enum" and it.value.kind == "text"]
    for text, key, node, place in [(it.text, it.key, it.node, it.place) for it in [*formulas.types(places), *formulas.of(places)]] + enums:
        for words in dict.fromkeys([put(text, it.start(), it.end(), new) for it in word.finditer(text)] + [word.sub(lambda _: new,
            text)] * bool(word.search(text))):
            if key == "case":
                found.append(put(case.text, place.at, place.at + len(text) + 2 * place.is_quoted, scalar(words)))
                continue
            begin, end = extent(case.text, node)
            is_inside = place.around.is_flow or place.role == "choices"
            found.append(put(case.text, begin, end, scalar(words, is_inside)))
    return found


def in_row(case: Case, old: str, new: str) -> Texts:
    """A word of the line is another, wherever it is."""
    return [case.with_row(put(case.row, it.start(), it.end(), new)) for it in re.finditer(re.escape(old), case.row)] if old else []


def whole_text(case: Case, new: Callable[[str], str]) -> Texts:
    """An expression or a type that begins on the line is another."""
    found = []
    for it in [*formulas.types(case.places), *formulas.of(case.places)]:
        if it.key != "case":
            begin, end = extent(case.text, it.node)
            found.append(put(case.text, begin, end, scalar(new(it.text), it.place.around.is_flow or it.place.role == "choices")))
        else:
            found.append(put(case.text, it.place.at, it.place.at + len(it.text) + 2 * it.place.is_quoted, scalar(new(it.text))))
    return found


def whole_item(case: Case, new: str) -> Texts:
    """An item of a list that begins on the line is another."""
    return [put(case.text, it.at, extent(case.text, it.value)[1], new) for it in case.places.keys if not it.key]


def swapped(pattern: str, new: str) -> Callable[[Case], List[Texts]]:
    """What puts something in place of what a pattern finds in an expression or type."""
    return lambda it: [whole_text(it, lambda text: re.sub(pattern, new, text))]


def moved(case: Case, column: int) -> Texts:
    """The text with another number of spaces before the line: alone, and with the deeper lines after it."""
    at, rows = case.line - 1, case.rows
    here = len(case.row) - len(case.row.lstrip(" "))
    alone = case.with_row(" " * column + case.row.lstrip(" "))
    rows[at] = " " * column + rows[at].lstrip(" ")
    for count in range(at + 1, len(rows)):
        own = len(rows[count]) - len(rows[count].lstrip(" "))
        if rows[count].strip() and own <= here:
            break
        rows[count] = " " * max(0, own + column - here) + rows[count].lstrip(" ") if rows[count].strip() else rows[count]
    return [alone, "\n".join(rows)]


def columns(case: Case) -> List[Texts]:
    """The line at each column that a hint names."""
    named = re.findall(r"\d+|no (?=space)", case.said.get("columns", ""))
    return [moved(case, int(it) if it.isdigit() else 0) for it in named]


def plain_row(row: str) -> Tuple[str, str, str]:
    """A line's front with its key, its value, and its comment."""
    found = re.match(r"( *(?:- +)*(?:[^\s:#'\"{\[][^:#]*?|\"[^\"]*\"|'[^']*'):[ \t]+)", row)
    front = found[1] if found else re.match(r" *(?:- +)*", row)[0]
    words = row[len(front) :]
    comment = COMMENT.search(words)
    stop = comment.start() if comment else len(words)
    return front, words[:stop].rstrip(), words[stop:]


def quoted_row(case: Case) -> List[Texts]:
    """Quotes around the value of the line."""
    front, words, comment = plain_row(case.row)
    last = re.sub(r"([:,{] *)((?:[^,:{}'\"]|:(?! ))+: [^,{}]*?)( *[,}])", lambda it: f"{it[1]}'{it[2]}'{it[3]}", case.row)
    key = re.sub(r"^( *)([^\s'\"][^:]*)(?=:)", r"\1'\2'", case.row) if case.hint.kind == "sign first" else case.row
    return [[case.with_row(f"{front}'" + words.replace("'", "''") + f"'{comment}"), case.with_row(key)] + ([case.with_row(last)] if words[:1] == "{" else [])]


def quotes_inside(case: Case) -> List[Texts]:
    """The quotes inside the quoted value of the line, written as a hint says."""
    front, words, comment = plain_row(case.row)
    sign = "''" if case.hint.kind == "apostrophe" else '\\"'
    return [[case.with_row(front + words[0] + words[1:-1].replace(words[0], sign) + words[-1] + comment)]]


def closed(case: Case) -> List[Texts]:
    """What closes brackets and braces, at the end of the line that a hint names."""
    number = int(re.search(r"line (\d+)", case.said["where"])[1])
    rows = case.rows
    comment = COMMENT.search(rows[number - 1])
    stop = comment.start() if comment else len(rows[number - 1].rstrip())
    rows[number - 1] = put(rows[number - 1], stop - case.said["where"].startswith("for"), stop, case.said["closing"])
    return [["\n".join(rows)]]


def without_second(case: Case) -> List[Texts]:
    """The text with another key for the one that is there twice, and without the first or the second line of it."""
    key, found = case.said["key"], []
    for it in re.finditer(rf"(?<![\w-])[\"']?{re.escape(key)}[\"']?(?=\s*:)", case.row):
        found.append(case.with_row(put(case.row, it.start(), it.end(), "4711" if key[:1].isdigit() else "-zz")))
    first = case.at(int(case.said["line"]))
    return [[*found, first.with_row(), case.with_row()]]


def item_again(case: Case) -> List[Texts]:
    """The key begins an item of its own: with the dash of the item that it is in."""
    here = len(case.row) - len(case.row.lstrip(" "))
    before = [it for it in case.rows[: case.line - 1] if re.match(rf" {{0,{max(0, here - 2)}}}- ", it)]
    dash = re.match(r" *-", before[-1])[0] if before else "-"
    return [[case.with_row(dash + " " * (here - len(dash)) + case.row.lstrip(" "))]]


def joined_lines(case: Case) -> List[Texts]:
    """A quoted text over several lines on one."""
    sign = plain_row(case.row)[1][:1]
    rest = case.rows[case.line :]
    for count, it in enumerate(rest):
        if sign and sign in it:
            one = " ".join([case.row.rstrip(), *(row.strip() for row in rest[: count + 1])])
            text = re.sub(re.escape(sign) + r"{3}\s*", sign, one)
            return [["\n".join([*case.rows[: case.line - 1], text, *rest[count + 1 :]])]]
    return [[case.with_row(re.sub(re.escape(sign) + "{3}", sign, case.row))]] if sign else []


def block_of(case: Case) -> List[Texts]:
    """A text over several lines as a block text."""
    rows, key = case.rows, re.escape(case.said["key"])
    begin = next((it for it in range(case.line - 1, -1, -1) if re.match(rf" *(?:- +)*{key}:", rows[it])), None)
    if begin is None:
        return []
    own = re.match(r"( *(?:- +)*)([^:]*:) *(.*)", rows[begin])
    column = len(own[1])
    stop = next((it for it in range(begin + 1, len(rows)) if rows[it].strip() and len(rows[it]) - len(rows[it].lstrip()) <= column), len(rows))
    inner = [f"{' ' * (column + 2)}{it.strip()}" for it in [own[3], *rows[begin + 1 : stop]]]
    return [["\n".join([*rows[:begin], f"{own[1]}{own[2]} |", *inner, *rows[stop:]])]]


def attribute_form(case: Case) -> List[Texts]:
    """A key with a type as an attribute of `seq`."""
    new = re.search(r"`- ({id: .*})`", case.hint.text)[1]
    key = case.said["key"]
    found = []
    for it in pairs(case, key):
        if it.role == "attribute":
            found.append(put(case.text, it.around.at, it.around.stop, f"{new}\n") if len(it.around.pairs) == 1 else dropped(case, key)[0])
        elif len(it.around.pairs) == 1 and not it.around.is_flow:
            found.append(put(case.text, it.at, extent(case.text, it.value)[1], f"seq: [{new}]"))
        else:
            found += dropped(case, key)
    return [found]


def named_item(case: Case) -> List[Texts]:
    """A key that is a name as the item's `id`, and its keys beside it."""
    found = []
    for it in pairs(case, case.said["key"]):
        inner = [case.text[one.at : extent(case.text, one.value)[1]] for one in it.value.pairs]
        begin = it.at - case.text.rfind("\n", 0, it.at) - 1
        new = f"{{id: {it.key}, {', '.join(inner)}}}" if it.value.is_flow else ("\n" + " " * begin).join([f"id: {it.key}", *inner]) + "\n"
        found.append(put(case.text, it.at, extent(case.text, it.value)[1], new) if not it.value.is_flow else put(case.text, it.around.at, extent(case.text,
            it.value)[1], new))
    return [found]


def mended(make: Callable[[Whole], object]) -> Callable[[Case], List[Texts]]:
    """What bin/ksv-mend does for a hint."""
    def made(case: Case) -> List[Texts]:
        found = make(Whole(case.text))
        return [[change.applied(case.text, found)]] if isinstance(found, Change) else []
    return made


def words(old: str, new: str) -> Callable[[Case], List[Texts]]:
    """What writes one word for another in an expression or a type; both may have places of the hint."""
    return lambda case: [in_text(case, filled(old, case), filled(new, case))]


def filled(text: str, case: Case) -> str:
    """A text with what is filled into a hint."""
    return re.sub(r"\{(\w+)\}", lambda it: case.said.get(it[1], ""), text)


def in_line(old: str, new: str) -> Callable[[Case], List[Texts]]:
    """What writes one word for another on the line, that a text in YAML can't be read of."""
    return lambda case: [in_row(case, filled(old, case), filled(new, case))]


def key_is(new: str) -> Callable[[Case], List[Texts]]:
    """What writes another key on the line that a hint names."""
    return lambda case: [renamed(case.at(where(case)), case.said["key"], filled(new, case))]


def leave_out(*keys: str) -> Callable[[Case], List[Texts]]:
    """What leaves out a key, each of some by itself."""
    return lambda case: [dropped(case, filled(it, case).partition(":")[0]) for it in keys]


def each_of(*keys: str) -> Callable[[Case], List[Texts]]:
    """What adds a key, each of some by itself."""
    return lambda case: [added(case, filled(it, case)) for it in keys]


def set_to(key: str, *new: str) -> Callable[[Case], List[Texts]]:
    """What gives a key another value, each of some by itself."""
    return lambda case: [value(case.at(where(case)), filled(key, case), filled(it, case)) for it in new]


def example_type(case: Case) -> List[Texts]:
    """The type that another language's type is, with a size where one is needed."""
    named = re.search(r": .*?`([a-z0-9]+)`", case.hint.text)
    if "floats" in case.hint.text:
        named = re.search(r"write `([a-z0-9]+)`", case.hint.text)
    new = "" if "no `type`" in case.hint.text or "`size` alone" in case.hint.text else named[1]
    found = []
    for it in pairs(case, "type"):
        has_size = any(it.around.has(key) for key in ("size", "size-eos", "terminator"))
        needs = new in ("", "str") and not has_size
        begin, end = extent(case.text, it.value)
        written = f"size: {4}" if needs and not new else f"type: {new}" + (", size: 4" if it.around.is_flow else
            f"\n{' ' * (it.at - case.text.rfind(chr(10), 0, it.at) - 1)}size: 4") * needs
        found += [put(case.text, it.at, end, written)] if new or needs else dropped(case, "type")
    found += [one for it in case.places.keys if it.role == "cases" and new and new != "str" for one in value(case, it.key, new)]
    return [found]


def enum_member(case: Case) -> List[Texts]:
    """A key of a case with its enum."""
    return [[one for it in case.places.keys if it.role == "cases" for one in renamed(case, it.key, re.search(r"`([^`]*)`\Z", case.hint.text)[1])]]


def key_of_case(new: str) -> Callable[[Case], List[Texts]]:
    """What writes another key for a case."""
    return lambda case: [[one for it in case.places.keys if it.role == "cases" for one in renamed(case, it.key, filled(new, case))]]


def entry(new: str) -> Callable[[Case], List[Texts]]:
    """What writes another entry of an enum."""
    def made(case: Case) -> List[Texts]:
        pattern = filled(new, case)
        return [[put(case.text, it.at, extent(case.text, it.value)[1], pattern) for it in case.places.keys if it.role == "enum" and it.value.kind == "text"]]
    return made


def called(case: Case) -> List[Texts]:
    """A type with a value for each parameter."""
    example = re.search(r"`([^`]*)`\Z", case.hint.text)[1].replace("..", "1")
    name = case.said["name"]
    return [whole_text(case, lambda text: re.sub(rf"(?<!\w){re.escape(name)}\s*(?:\(.*\))?", example, text, count=1))]


def twice(case: Case) -> List[Texts]:
    """Another name for what is there twice."""
    name = case.said["name"]
    places = [it for it in case.places.keys if it.key == name or it.key == "id" and it.value.text == name or it.value.text == name]
    return [[one for it in places for one in (renamed(case, name, "other_one" if not name[:1].isdigit() else "4711") if it.key == name else value(case,
        it.key, "other_one"))]]


def without_tab(case: Case) -> List[Texts]:
    """Spaces for the tabs before the text."""
    front = re.match(r"[ \t-]*", case.row)[0]
    return [[case.with_row(front.replace("\t", " " * count) + case.row[len(front) :]) for count in range(1, 9)]]


def repeated(case: Case) -> List[Texts]:
    """`repeat: expr` with its count."""
    count = re.search(r"`repeat-expr: ([^`]*)`\Z", case.hint.text)
    return [[it for one in value(case, "repeat", "expr") for it in added(case._replace(text=one), f"repeat-expr: {count[1] if count else 3}",
        pairs(case._replace(text=one), "repeat")[0].around)]]


def listed_type(case: Case) -> List[Texts]:
    """A type without its count, and `repeat` beside it."""
    name, count = case.said["type"], case.said["count"]
    found = []
    for one in value(case, "type", name):
        new = case._replace(text=one)
        around = pairs(new, "type")[0].around
        two = "repeat: expr, repeat-expr: 3" if around.is_flow else f"repeat: expr\n{' ' * (pairs(new, 'type')[0].at - one.rfind(chr(10), 0, pairs(new, 'type')[0].at) - 1)}repeat-expr: {count if count.isdigit() else 3}"
        found += added(new, two, around)
    return [found]
