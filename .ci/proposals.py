"""Which kind of hint proposes what: MADE has what makes it, SAID why nothing is made of the others; `alternatives` is what comes out of a refusal."""
from __future__ import annotations

import re
from typing import Callable, Dict, List

import proposed as it
from front.hints.kinds import Hint
from front.hints.node import Node
from proposed import Case, Texts

Made = Callable[[Case], List[Texts]]
SAME_KEY, NAME = it.key_is("{near}"), it.words("{name}", "{near}")


def rows(new: Callable[[Case], List[str]]) -> Made:
    """What writes the refused line otherwise, in one of some ways."""
    return lambda case: [[case.with_row(row) for row in new(case)]]


def cut(case: Case) -> List[Texts]:
    """The text before the refused line."""
    return [["\n".join(case.rows[: case.line - 1]) + "\n"]]


def spaced(case: Case) -> List[Texts]:
    """A space behind the colon of what a hint names."""
    near = case.said["near"]
    at = case.at(it.where(case))
    return [[*it.in_row(at, near.replace(": ", ":", 1), near), *it.in_row(at, near.partition(": ")[0] + ":", near.partition(": ")[0] + ": ")]]


def coloned(case: Case) -> List[Texts]:
    """A colon behind a key that has none, where it is a word alone or has a value behind it."""
    at = case.at(it.where(case))
    key = case.said["key"]
    return [[at.with_row(re.sub(rf"{re.escape(key)}(?: *[=;])? *", f"{key}: ", at.row, count=1).rstrip())]]


def dashed(case: Case) -> List[Texts]:
    """A space behind the dash of an item, and its other keys below its first."""
    at = case.at(it.where(case))
    key = case.said["key"]
    new = at.with_row(re.sub(rf"-+ *{key}:", f"- {key}:", at.row, count=1)).split("\n")
    column = new[at.line - 1].index(f"{key}:")
    below = [f"{' ' * column}{row.lstrip(' ')}" if count == at.line else row for count, row in enumerate(new)]
    return [["\n".join(new), "\n".join(below)]]


def item_or_key(case: Case) -> List[Texts]:
    """A dash before the line, and the line as a key of the item above."""
    here = len(case.row) - len(case.row.lstrip(" "))
    return [[case.with_row(f"{' ' * here}- {case.row.lstrip(' ')}")], *it.columns(case)]


def unquoted(case: Case) -> List[Texts]:
    """Quotes around all of a value, and none in it."""
    front, words, comment = it.plain_row(case.row)
    return [[case.with_row(front + "'" + words.replace("'", "''") + "'" + comment)], [case.with_row(front + words.replace(words[:1], "") + comment)]]


def single_quoted(case: Case) -> List[Texts]:
    """Two backslashes for one that is no escape, and single quotes around the text."""
    escape = case.said.get("escape", "\\")
    doubled = [case.row.replace("\\", "\\\\")] if escape == "\\" else [re.sub(r"\\(?![\\\"0abtnvfrexu/])", r"\\\\", case.row), case.row.replace("\\", "\\\\")]
    texts = re.sub(r"\"((?:[^\"\\]|\\.)*)\"?", lambda one: "'" + one[1].replace("'", "''") + "'", case.row)
    return [[case.with_row(one) for one in doubled], [case.with_row(texts)]]


def quote_behind(case: Case) -> List[Texts]:
    """The quote that is missing, at the end of the line."""
    return [[case.with_row(case.row.rstrip() + case.said["sign"]), case.with_row(re.sub(r"([,}\]\s]*)\Z", case.said["sign"] + r"\1", case.row, count=1)),
             "\n".join([*case.rows[: case.line - 1], case.row.rstrip() + case.said["sign"], *case.rows[case.line :]])]]


def order_of(case: Case) -> List[Texts]:
    """The order of bytes in a type, and in `meta`."""
    kind = case.said.get("type", "")
    found = [it.in_text(case, kind, f"{kind}{order}") for order in ("le", "be") if kind]
    metas = [one.value for one in it.Places(it.Outline(case.text), next((n for n, row in enumerate(case.rows, 1) if row.lstrip("\ufeff").startswith("meta:")),
        1)).keys if one.key == "meta"]
    return found + [it.added(case, "endian: le", one) for one in metas if one.kind == "map" and not one.has("endian")]


def parted(case: Case) -> List[Texts]:
    """A comma behind each word or bracket after which another part follows."""
    found = [f"{case.row[: one.end()]},{case.row[one.end() :]}" for one in re.finditer(r"[\w'\"}\]](?= +[\w'\"{\[]|[{\[])", case.row)]
    rows = [*case.rows[: case.line - 2], case.rows[case.line - 2].rstrip() + ",", *case.rows[case.line - 1 :]]
    return [[*map(case.with_row, found), "\n".join(rows), case.with_row(re.sub(r"(\w|\}|\]) +(?=[\w{\[\"']+\b(?!:))", r"\1, ", case.row))]]


def flow_texts(case: Case) -> List[Texts]:
    """Quotes around the part of braces or brackets that has a sign of them."""
    found = [case.with_row(it.put(case.row, one.start(1), one.end(1), "'" + one[1].replace("'",
        "''") + "'")) for one in re.finditer(r"(?<=[:,\[{]) *([^\s,'\"\[\]{}][^'\"]*?)(?= *[,\]}])", case.row)]
    wide = [case.with_row(it.put(case.row, one.start(1), one.end(1), "'" + one[1].replace("'",
        "''") + "'")) for one in re.finditer(r": ([^\s'\"{\[](?:[^'\"{}]|\([^()]*\))*?)(?=, [\w-]+: |\}+\s*\Z)", case.row)]
    return [found + wide]


def sized(case: Case) -> List[Texts]:
    """All bytes to the end, in place of a size."""
    return [[it.put(case.text, one.at, it.extent(case.text, one.value)[1], "size-eos: true") for one in it.pairs(case, "size")]]


def raw(case: Case) -> List[Texts]:
    """The bytes, by `size` without `type`; where `meta` has the encoding, without that."""
    if it.pairs(case, "encoding") and it.pairs(case, "encoding")[0].role == "meta":
        return [it.dropped(case, "encoding")]
    around = it.pairs(case, "encoding")[0].around
    made = it.without(case.text, around, [one for one in ("encoding", "type") if around.has(one)], False)
    return [[it.change.applied(case.text, it.Change("", tuple(made[0])))]] if made else []


def hung_on(case: Case) -> List[Texts]:
    """A byte that fills up as a terminator."""
    return [[one for key in it.pairs(case, "pad-right") for one in it.renamed(case, "pad-right", "terminator")]]


def digits_of(case: Case) -> List[Texts]:
    """A number without its zeros before it."""
    return [it.in_row(case, *one) for one in [(found[0], found[1]) for found in re.finditer(r"(?<![\w.])0+([1-9]\d*|0)(?![\w.])", case.row)][:1]]


def checked(case: Case) -> List[Texts]:
    """The values of a check under `any-of`."""
    found = []
    for one in it.pairs(case, "valid"):
        begin, end = it.extent(case.text, one.value)
        words = case.text[begin:end].strip("'\"")
        if "\n" not in words:
            found.append(it.put(case.text, begin, end, f"{{any-of: {words if words[:1] == '[' else f'[{words}]'}}}"))
    return [found]


def members_of(case: Case) -> List[Texts]:
    """A constant as an instance of the type around."""
    name, found = case.said["name"], []
    node = (case.places.keys or case.places.starts)[0].type.node
    where = node.get("instances")
    for text in it.in_text(case, case.said["word"], name):
        after = len(text) - len(case.text)
        if where is None:
            found.append(with_instances(case, text, node, name, after))
        elif where.kind == "map" and where.pairs:
            indent = " " * (where.at - case.text.rfind("\n", 0, where.at) - 1)
            at = where.at + where.is_flow + (after if where.at > sum(len(row) + 1 for row in case.rows[: case.line - 1]) else 0)
            found.append(it.put(text, at, at, f"{name}: {{value: 1}}" + (", " if where.is_flow else f"\n{indent}")))
    return [found]


def with_instances(case: Case, text: str, node: Node, name: str, after: int) -> str:
    """A text with `instances` in a type that has none, in front of its keys or behind `meta`."""
    begin = case.text.rfind("\n", 0, node.at) + 1
    column = node.at - begin
    key = next((one for one in node.pairs if one.key != "meta"), None)
    at = key.at if key else node.at
    shift = after if at > sum(len(row) + 1 for row in case.rows[: case.line - 1]) else 0
    pair = f"instances: {{{name}: {{value: 1}}}}"
    return it.put(text, at + shift, at + shift, f"{pair}, " if node.is_flow else f"{pair}\n{' ' * column}")


def cast(case: Case) -> List[Texts]:
    """A number without the type in parentheses before it; and the bits of it that the hint names."""
    kind = case.said["type"]
    bare = it.whole_text(case, lambda text: re.sub(rf"\(\s*{re.escape(kind)}\s*\)\s*|\s+as\s+{re.escape(kind)}\b", "", text, count=1))
    if "mask" not in case.said:
        return [bare]
    masked = it.whole_text(case, lambda text: re.sub(rf"\(\s*{re.escape(kind)}\s*\)\s*([\w.]+(?:<[\w:]+>|\[[^\[\]]*\]|\([^()]*\))?|\([^()]*\))",
        rf"(\1 & {case.said['mask']})", text, count=1))
    masked += it.whole_text(case, lambda text: re.sub(rf"([\w.]+)\s+as\s+{re.escape(kind)}\b", rf"(\1 & {case.said['mask']})", text, count=1))
    return [bare, masked]


def choice(pattern: str) -> Made:
    """A choice in place of what a pattern finds."""
    return lambda case: [it.whole_text(case, lambda text: re.sub(pattern, "(1 < 2 ? 1 : 2)", text))]


def type_below(case: Case) -> List[Texts]:
    """A type of its own for a text or bits, in a case."""
    found = []
    for one in case.places.keys:
        if one.role == "cases" and one.value.kind == "text":
            begin, end = it.extent(case.text, one.value)
            text = it.put(case.text, begin, end, "own_type")
            inner = f"own_type: {{seq: [{{id: a, type: {one.value.text}, size: 1}}]}}" if one.value.text == "str" else f"own_type: {{seq: [{{id: a, type: {one.value.text}}}]}}"
            types = it.Outline(text).root.get("types")
            if types is None:
                found.append(f"{text.rstrip()}\ntypes: {{{inner}}}\n")
            else:
                column = types.at - text.rfind("\n", 0, types.at) - 1
                found.append(it.put(text, types.at + types.is_flow, types.at + types.is_flow, inner + (", " if types.is_flow else f"\n{' ' * column}")))
    return [found]


def beside_value(case: Case, key: str, other: str, new: str) -> Texts:
    """Another value for a key of the mapping that has one on the line."""
    return [it.put(case.text, *it.extent(case.text, one.around.get(other)), new) for one in it.pairs(case, key) if one.around.get(other)]


def of_key(case: Case, key: str) -> Case:
    """The same of the line that a key is on, where it isn't on this one."""
    there = next((count for count, row in enumerate(case.rows, 1) if re.match(rf" *{re.escape(key)}:", row)), case.line)
    return case if it.pairs(case, key) else case.at(there)


def repeats(case: Case, word: str) -> Texts:
    """`repeat` with what it needs."""
    found = []
    for one in it.value(case, "repeat", word):
        around = it.pairs(case._replace(text=one), "repeat")[0].around
        found += [one] if around.has(f"repeat-{word}") else it.added(case._replace(text=one), f"repeat-{word}: {'1' if word == 'expr' else 'true'}", around)
    return found


def kept(case: Case, *keys: str) -> Texts:
    """A check without other keys than some."""
    for one in case.places.keys:
        around = one.value if one.key == "valid" else one.around
        if around.kind == "map" and any(around.has(key) for key in keys) and (one.key == "valid" or one.role == "valid"):
            made = it.without(case.text, around, [pair.key for pair in around.pairs if pair.key not in keys], False)
            return [it.change.applied(case.text, it.Change("", tuple(made[0])))] if made else []
    return []


def commented(case: Case) -> Texts:
    """What comes after a sign as a comment, at the end of the line."""
    before, _, after = case.row.partition(case.said["sign"])
    if "block" in case.said["where"]:
        return it.whole_text(case, lambda text: text.partition(case.said["sign"])[0].strip())
    closing = re.search(r"[\]}'\"]+\s*\Z", after) if case.said["where"] else None
    return [case.with_row(f"{before.rstrip()}{closing[0] if closing else ''} # {after}")]


def uncommented(case: Case) -> Texts:
    """What is in quotes behind `#` as a comment, at the end of the line; a block text without it."""
    if "block" in case.said["where"]:
        return it.whole_text(case, lambda text: re.sub(r"(?m)\s*#[^\n]*", "", text).strip())
    return commented(case._replace(said={**case.said, "sign": "#"}))


def below_key(case: Case) -> List[Texts]:
    """The item of a list on the line below its key, and what follows beside it."""
    front, words, _ = it.plain_row(case.row)
    key = front.rstrip()
    indent = " " * (len(re.match(r" *", key)[0]) + 2)
    return [[case.with_row(key, indent + words), case.with_row(key, indent[2:] + words)]]


def dash_above(case: Case) -> List[Texts]:
    """A dash before the text of the line that a hint names."""
    at = case.at(it.where(case))
    here = len(case.row) - len(case.row.lstrip(" "))
    return [[at.with_row(re.sub(r"( *)  (?=\S)", r"\1- ", at.row, count=1)), at.with_row(" " * (here - 2) + "- " + at.row.strip()),
        at.with_row(" " * here + "- " + at.row.strip())]]


def twice_quoted(case: Case) -> Texts:
    """A quote at each place of an expression."""
    sign = case.said["sign"]
    found = [one for key in case.places.keys if key.role == "cases" for one in it.renamed(case, key.key, f"'\"{key.key.strip(sign)}\"'") + it.renamed(case,
        key.key, key.key.strip(sign))]
    for one in [*it.formulas.types(case.places), *it.formulas.of(case.places)]:
        begin, end = it.extent(case.text, one.node)
        found += [it.put(case.text, begin, end, it.scalar(it.put(one.text, at, at, sign), one.place.around.is_flow)) for at in range(len(one.text) + 1)]
    return found[::-1][:80]


def closed_by(case: Case) -> Texts:
    """The right sign for one that closes another kind of bracket."""
    other, closing = case.said["other"], case.said["closing"]
    return [case.with_row(it.put(case.row, one.start(), one.end(), closing)) for one in re.finditer(re.escape(other), case.row)]


def added_place(case: Case) -> Texts:
    """An instance with a `pos`; its keys are below the refused one."""
    found = []
    for one in case.places.keys:
        if one.role == "instances" and one.value.kind == "map":
            found += it.added(case, "pos: 0", one.value)
    return found


def capital(case: Case) -> Texts:
    """Small letters for a word with large ones."""
    name = case.said.get("name", "")
    old = [one for one in re.findall(r"[A-Za-z_]\w*(?:\(.*\))?", case.row) if it.plain(one) in it.plain(name) and any(sign.isupper() for sign in one)]
    return [text for one in old for text in it.in_text(case, one, name)] if name else []


def named(case: Case) -> Texts:
    """A name in small letters, where it is given."""
    if "name" not in case.said:
        return []
    new, found = case.said["name"], []
    for one in case.places.keys:
        if one.role in ("types", "instances", "enums") and it.plain(new) in it.plain(one.key):
            found += it.renamed(case, one.key, new)
        elif (one.key in ("id", "enum") or one.role == "enum" and one.value.kind == "text") and it.plain(new) in it.plain(one.value.text):
            found += it.value(case, one.key, new)
    return found


def other_key(case: Case) -> Texts:
    """A key that is written otherwise; `repeat: eos` takes the place of its value too."""
    at, near = case.at(it.where(case)), case.said["near"]
    if ": " in near:
        return [it.put(case.text, one.at, it.extent(case.text, one.value)[1], near) for one in it.pairs(at, case.said["key"])]
    found = it.renamed(at, case.said["key"], near)
    word = near.partition("repeat-")[2]
    return [text for one in found for text in it.beside(at._replace(text=one), near,
        f"repeat: {word}") or [one]] if word and "beside" in case.hint.text and not it.pairs(at, case.said["key"])[0].around.has("repeat") else found


def as_type(case: Case) -> Texts:
    """A type at a key's place, under `types`; where there are some, it is taken out here."""
    found = []
    for one in it.pairs(case, case.said["key"]):
        begin = case.text.rfind("\n", 0, one.at) + 1
        stop = it.extent(case.text, one.value)[1]
        part = case.text[begin:stop]
        inner = "\n".join(f"  {row}" for row in part.split("\n"))
        found += it.dropped(case, one.key) if one.around.has("types") or one.around.is_flow else [it.put(case.text, begin, stop,
            f"{' ' * (one.at - begin)}types:\n{inner}")]
    return found


def wanted(case: Case) -> str:
    """What a hint has as an example of a mapping; of types that are a list, each under its name."""
    listed = [one for one in [it.Outline(case.text).root.get(case.said["key"])] if one is not None and one.kind == "list"]
    if listed and case.said["key"] == "types":
        return "{" + ", ".join(f"{one.said('id')}: {{seq: []}}" for one in listed[0].items if one.said("id")) + "}"
    found = re.search(r": .*?`([^`]*)`", case.hint.text.partition("mapping")[2])
    example = found[1] if found else "{}"
    return example.partition(": ")[2] if example.startswith("cases:") or example.startswith("meta:") else "{" + example + "}" if example.startswith("name:") else example


def at_of(case: Case) -> int:
    """The place that the program tells of an expression."""
    return int(re.search(r"(\d+)\Z", case.told)[1])


def operator(case: Case) -> Texts:
    """A word or a sign that is an operator elsewhere, as it is written here."""
    old, new = case.said["word"], case.said["near"]
    if old == "not in":
        return it.whole_text(case, lambda text: re.sub(r"([\w.]+)\s+not\s+in\s+[\[(](\w+)[^\])]*[\])]", r"\1 != \2 and \1 != \2", text))
    if old == "in":
        return it.whole_text(case, lambda text: re.sub(r"([\w.]+)\s+in\s+[\[(](\w+)[^\])]*[\])]", r"\1 == \2 or \1 == \2", text))
    if old == "as":
        return it.whole_text(case, lambda text: re.sub(r"([\w.]+)\s+as\s+([\w:]+)", r"\1.as<\2>", text))
    if old == "??":
        return it.whole_text(case, lambda text: re.sub(r"(.*?)\?\?(.*)", r"true ? \1 : \2", text))
    if old == "is":
        return it.whole_text(case, lambda text: re.sub(r"\bis\b", "==", re.sub(r"\bis\s+not\b", "!=", text)))
    return it.in_text(case, old, new)


def behind(case: Case) -> Texts:
    """A closing sign at each place behind the opening one."""
    closing = case.said["closing"]
    found = []
    for one in [*it.formulas.types(case.places), *it.formulas.of(case.places)]:
        begin, end = it.extent(case.text, one.node)
        for at in range(one.text.rfind(case.said["sign"]) + 1, len(one.text) + 1):
            found.append(it.put(case.text, begin, end, it.scalar(it.put(one.text, at, at, closing), one.place.around.is_flow)))
    return found[::-1][:40]


def before_place(case: Case) -> Texts:
    """A closing sign at each place before the one that the program tells."""
    found = []
    for one in [*it.formulas.types(case.places), *it.formulas.of(case.places)]:
        begin, end = it.extent(case.text, one.node)
        for at in range(max(0, at_of(case) - 60), min(at_of(case), len(one.text)) + 1):
            found.append(it.put(case.text, begin, end, it.scalar(it.put(one.text, at, at, case.said["closing"]), one.place.around.is_flow)))
    return found[::-1]


def closing_of(text: str) -> str:
    """What closes the brackets that a text opens."""
    found = []
    for sign in re.findall(r"[()\[\]]", re.sub(r"'[^']*'|\"[^\"]*\"", "", text)):
        if sign in "([":
            found.append(")" if sign == "(" else "]")
        elif found:
            found.pop()
    return "".join(reversed(found))


def bounded(case: Case) -> Texts:
    """A bound of a check under its key."""
    words = [one for one in ("{min: 1}", "{max: 1}")]
    rows = [re.sub(r"valid: [^,}]*", f"valid: {one}", case.row) for one in words]
    return [case.with_row(row) for row in [*rows, re.sub(r"(min|max|eq|expr): *[<>=!]+ *", r"\1: ", case.row)]]


def flow_rows(case: Case, column: int) -> Texts:
    """The lines of what is open, each with at least so many spaces."""
    found = []
    begin = int(case.said["line"])
    for stop in range(case.line, min(case.line + 12, len(case.rows)) + 1):
        rows = case.rows
        for at in range(begin, stop):
            own = len(rows[at]) - len(rows[at].lstrip(" "))
            rows[at] = " " * max(own, column) + rows[at].lstrip(" ")
        found.append("\n".join(rows))
    return found


def drop_last(row: str, sign: str) -> str:
    """A line without the last of a sign."""
    at = row.rfind(sign)
    return row[:at] + row[at + len(sign) :]


def deeper(case: Case) -> str:
    """The lines of a text with more spaces."""
    begin = int(case.said["line"])
    key = re.match(r" *(?:- +)*", case.rows[begin - 1])[0]
    return case.with_row(" " * (len(key) + 2) + case.row.lstrip(" "))


CONTENT = {"type": "type: u1", "size": "size: 1", "size-eos": "size-eos: true", "terminator": "terminator: 0", "contents": "contents: [1]"}
MADE: Dict[str, Made] = {
    "float": lambda case: [it.in_text(case, f"f{count}{order}", f"u{count}{order}") for count in "48" for order in ("le", "be",
        "") if f"f{count}{order}" in case.row][:1],
    "low bits": lambda case: [it.value(case, "bit-endian", "be") or it.whole_text(case, lambda text: re.sub(r"b\d+le", "u1", text))],
    "process": it.leave_out("process"),
    "imports": lambda case: [it.dropped(case, "imports") or it.dropped(case, "ks-opaque-types")],
    "utf8": it.set_to("encoding", "UTF-8"),
    "encoding": raw,
    "padding": hung_on,
    "in-enum": it.mended(it.members),
    "no place": lambda case: [added_place(case)],
    "array": it.mended(it.one_by_one),
    "choice": it.quoted_row,
    "colon": it.quoted_row,
    "first letter": it.quoted_row,
    "sign first": it.quoted_row,
    "equals": lambda case: [it.whole_text(case, lambda text: re.sub(r"===|(?<![=!<>:]):?=(?!=)", "==", text))],
    "strz end": lambda case: [beside_value(case, "terminator", "type", "str")],
    "operator": lambda case: [[case.with_row(re.sub(r"!(?!=)", "not ", case.row.replace("&&", "and").replace("||", "or").replace("! ", "!"))),
        case.with_row(re.sub(r"(\S+: )(!.*)", r"\1'\2'", case.row)),
            case.with_row(re.sub(r"!(?!=)", "not ", case.row.replace("&&", "and").replace("||", "or")))]],
    "capital": lambda case: [capital(case)],
    "case text": lambda case: [[one for key in case.places.keys if key.role == "cases" for one in it.renamed(case, key.key, f"'\"{key.key}\"'")]],
    "repeat count": it.repeated,
    "root params": it.leave_out("params"),
    "type end": lambda case: [it.renamed(case, "terminator", "size")],
    "case of text": type_below,
    "case of bits": type_below,
    "contents": lambda case: [it.value(case, "contents", f"[{case.said.get('number', '137')}]")],
    "zero": digits_of,
    "size of type": it.swapped(r"(?:bit)?sizeof\s*(?:<[^<>]*>|\([^()]*\))|\b_sizeof", "4"),
    "filled text": it.swapped(r"f(?:\"[^\"]*\"|'[^']*')", "'a'"),
    "escape": lambda case: [[case.with_row(re.sub(r"\\x([0-9a-fA-F]{2})|\\(?![\\\"'abtnvfreu])(.)", r"\\u0041", case.row))]],
    "anchor": rows(lambda case: [re.sub(r"(?<=[\s\[{:])[&!][^\s,\]}]* ?", "", f" {case.row}")[1:], re.sub(r"(?<=[\s\[{:])\*[\w-]+", "a", case.row)]),
    "block sign": lambda case: [[case.with_row(re.sub(r"([|>])[-+\d]+", sign, case.row))] for sign in (r"\1", r"\1-")],
    "contents wanted": lambda case: [[case.with_row(re.sub(r"contents: .*", f"contents: {new}",
        case.row))] if it.plain_row(case.row)[1][:1] in "'\"" else it.value(case, "contents", new) or it.whole_item(case, "1") for new in ("[1, a]", "some")],
    "lines in quotes": it.joined_lines,
    "tab": it.without_tab,
    "name": lambda case: [named(case)],
    **dict.fromkeys(("key as written", "near key", "other word"), lambda case: [other_key(case)]),
    "unread key": it.leave_out("{key}"),
    "key there": lambda case: it.leave_out("{key}")(case.at(it.where(case))),
    "name there": lambda case: [it.in_row(case.at(it.where(case)), case.said["name"], case.said["near"])],
    "attribute form": it.attribute_form,
    "named item": it.named_item,
    "typed name": lambda case: [[it.put(case.text, one.at, it.extent(case.text, one.value)[1],
        f"{{id: {one.key}, type: {case.said['type']}}}") for one in it.pairs(case, case.said["key"])]],
    "case alone": lambda case: [[one for key in case.places.keys if key.role == "cases" for one in it.renamed(case, key.key, case.said["near"])]],
    "order line": lambda case: [[case.with_row()]],
    "unequal": rows(lambda case: [re.sub(r"valid: [^,}]*", f"valid: {{expr: _ {case.said['check']}}}", case.row)]),
    "enum for cast": lambda case: [it.whole_text(case, lambda text: re.sub(rf"[\w.]+\.as<{case.said['name']}>", f"{case.said['name']}::{case.said['member']}",
        text))],
    "unknown key": lambda case: [it.renamed(case, case.said["key"], f"-{case.said['key']}")],
    "type at key": lambda case: [as_type(case)],
    "key elsewhere": lambda case: [it.dropped(case.at(it.where(case)), case.said["key"]) or it.renamed(case.at(it.where(case)), case.said["key"], "-zz")],
    "no meta": lambda case: [[f"meta: {{id: t}}\n{case.text}"] if case.text[:1] not in "{" else ["{meta: {id: t}, " + case.text[1:]]],
    "no meta id": it.each_of("id: t"),
    "no id": it.each_of("id: own_name"),
    **dict.fromkeys(("no content", "beside missing"), lambda case: it.each_of(*[CONTENT[one] for one in re.findall(r"`([\w-]+)", case.said["wanted"])])(case)),
    "truth below": it.set_to("size-eos", "true"),
    "no text size": it.each_of("size: 1", "terminator: 0"),
    "no encoding": it.each_of("encoding: ASCII"),
    "no count": lambda case: [it.added(case, f"repeat-{case.said['word']}: {'1' if case.said['word'] == 'expr' else 'true'}")],
    "no switch-on": it.each_of("switch-on: 1"),
    "no cases": it.each_of("cases: {1: u1}"),
    "no check": it.each_of("eq: 1", "any-of: [1]", "min: 1", "max: 1", "expr: 'true'"),
    "id twice": it.twice,
    "number twice": it.twice,
    "member twice": it.twice,
    "beside value": lambda case: it.leave_out("{key}", *["value"] * ("one" in case.said["which"]))(case),
    "beside contents": it.leave_out("{key}", "contents"),
    "two sizes": it.leave_out("size", "size-eos"),
    "integer size": it.leave_out("{key}", "type"),
    "case size": it.leave_out("{key}"),
    "no repeat": lambda case: [it.beside(case, case.said["key"], f"repeat: {case.said['word']}") or it.value(case, "repeat", case.said["word"])],
    "enum of none": it.leave_out("enum"),
    "two checks": lambda case: [kept(case, *some) for some in (("eq",), ("any-of",), ("expr",), ("min", "max"))],
    **dict.fromkeys(("near member", "special name", "near enum member", "near enum", "near type", "type as written", "integer type", "word type", "one byte"),
        NAME),
    "member of root": it.words("{name}", "_root.{name}"),
    "member of parent": it.words("{name}", "_parent.{name}"),
    "member inside": it.words("{name}", "{member}.{name}"),
    "member of enum": it.words("{name}", "{enum}::{name}"),
    "enum by point": lambda case: [it.whole_text(case, lambda text: re.sub(rf"\b(?<!\.){case.said['name']}\s*[./]\s*\w+",
        f"{case.said['name']}::{case.said['member']}", text))],
    "checked value": it.words("{name}", "_"),
    "text first": lambda case: [[case.at(it.where(case)).with_row()], [case.at(it.where(case)).with_row("# " + case.at(it.where(case)).row)]],
    "index name": it.words("{name}", "_index"),
    "element name": it.words("{name}", "_"),
    "member of element": it.words("{name}", "_.{name}"),
    "rest": sized,
    "own member": lambda case: [it.whole_text(case, lambda text: re.sub(rf"\b{case.said['name']}\s*\.\s*", "", text))],
    "letter number": lambda case: [it.whole_text(case, lambda text: case.said["number"])],
    "quoted words": lambda case: [it.whole_text(case, lambda text: f'"{text}"')],
    "quote escape": rows(lambda case: [case.row.replace("\\'", "'")]),
    "text name": lambda case: [[one for key in case.places.keys if key.role == "cases" for one in it.renamed(case, key.key,
        f"'\"{key.key}\"'")] + it.whole_text(case, lambda text: f'"{text}"' if text == case.said["text"] else text)],
    "member further": it.words("{name}", "{path}"),
    "name after point": it.swapped(r"[\w.\[\]]*\.(?=_)", ""),
    "enum elsewhere": it.words("{name}", "{path}"),
    "member for enum": it.set_to("enum", "{enum}"),
    "method without arguments": it.swapped(r"(?<=\w)\s*\(\s*\)", ""),
    "text of": it.swapped(r"\(\s*\)", ""),
    "other type": it.example_type,
    "type elsewhere": it.words("{name}", "{path}"),
    "no order": order_of,
    "order": order_of,
    "arguments": it.called,
    "arguments of built-in": lambda case: [it.whole_text(case, lambda text: text.partition("(")[0].strip())],
    "enum for type": lambda case: [[one for text in it.value(case, "type", "u1") for one in it.beside(case._replace(text=text), "type",
        f"enum: {case.said['name']}")]],
    "listed name": lambda case: [it.value(case, "id", case.said["name"])],
    "one of": lambda case: [it.value(case, case.said["key"], one) for one in re.findall(r"`(\w+)`", case.said["words"])],
    "repeat word": lambda case: [it.value(case, "repeat", "eos"), repeats(case, "expr"), repeats(case, "until")],
    "repeat joined": lambda case: [[one for text in it.value(case, "repeat", case.said["word"]) for one in it.beside(case._replace(text=text), "repeat",
        f"repeat-{case.said['word']}: {case.said['value']}")]],
    "letter case": it.set_to("{key}", "{near}"),
    "truth": it.set_to("{key}", "true", "false"),
    "terminator": it.set_to("terminator", "0x0a"),
    "terminator letter": it.set_to("terminator", "{number}"),
    "terminator list": it.set_to("terminator", "0"),
    "list wanted": lambda case: [it.value(of_key(case, case.said["key"]), case.said["key"],
        new) for new in (["[]"] if case.code == "S6" else ["[{id: own_name}]"])],
    "item wanted": lambda case: [[it.put(case.text, key.at, it.extent(case.text, key.value)[1],
        "{id: own_name, type: u1}") for key in case.places.keys if not key.key]],
    "own size": it.leave_out("{key}"),
    "mapping wanted": lambda case: [it.value(of_key(case, case.said["key"]), case.said["key"], wanted(case))],
    "entry wanted": lambda case: [it.value(case, case.said["key"], wanted(case))],
    "other case": it.key_of_case("_"),
    "case each": lambda case: [[one for key in case.places.keys if key.role == "cases" for one in it.renamed(case, key.key, "4711")]],
    "case member": it.enum_member,
    "expression wanted": it.set_to("{key}", "1"),
    "choices": lambda case: [it.value(case, "any-of", "[1, 2]") or it.whole_item(case, "1")],
    "checked list": checked,
    "contents number": lambda case: [it.whole_item(case, "255")],
    "type wanted": it.set_to("type", "u1"),
    "case wanted": lambda case: [[one for key in case.places.keys if key.role == "cases" for one in it.value(case, key.key, "u1")]],
    "case key": lambda case: [[one for key in case.places.keys if key.role == "cases" for one in it.renamed(case, key.key, new)] for new in ("4711",
        "'\"zz\"'")],
    "enum number": it.entry("4711: {name}"),
    "enum order": it.entry("{number}: {name}"),
    "number form": lambda case: [[one for key in case.places.keys if key.role == "enum" for one in it.renamed(case, key.key, case.said["near"])]],
    "enum point": lambda case: [it.value(case, "enum", case.said["near"])],
    "text wanted": it.set_to("{key}", "a"),
    "padding of none": it.leave_out("pad-right"),
    "imports of none": it.leave_out("imports"),
    "number prefix": lambda case: [it.whole_text(case, lambda text: re.sub(r"0[XBOo][0-9a-fA-F]+|\b[01]+[bB]\b", case.said["near"], text, count=1))],
    "capital member": it.words("{word}", "{near}"),
    "capital text": it.words("{word}", '"{word}"'),
    "name sign": lambda case: [[case.with_row(case.row.replace(case.said["sign"], "", 1))]],
    "type list": it.listed_type,
    "type order": it.set_to("type", "{near}"),
    "thousands": lambda case: [it.whole_text(case, lambda text: case.said["near"])],
    "hex number": lambda case: [it.whole_text(case, lambda text: re.sub(r"[$#]\w+" if re.search(r"[$#]", text) else r"\b" + case.said["near"][2:] +
        r"[hH]?\b", case.said["near"], text))],
    "sign cast": cast,
    "low cast": cast,
    "type cast": lambda case: [it.whole_text(case, lambda text: re.sub(rf"\(\s*{re.escape(case.said['type'])}\s*\)\s*{re.escape(case.said['value'])}",
        f"{case.said['value']}.as<{case.said['type']}>", text))],
    "number suffix": lambda case: [it.whole_text(case, lambda text: re.sub(rf"\b{case.said['near']}[a-zA-Z]\w*", case.said["near"], text))],
    "no constant": members_of,
    "struct format": it.set_to("type", "{near}"),
    "struct bytes": lambda case: [[it.put(case.text, one.at, it.extent(case.text, one.value)[1], f"size: {case.said['count']}") for one in it.pairs(case,
        "type")]],
    "bytes text": lambda case: [it.whole_text(case, lambda text: re.sub(r"\b[bru](?=[\"'])", "", text))],
    "text size": lambda case: [[one for text in it.value(case, "type", "str") for one in it.beside(case._replace(text=text), "type",
        f"size: {case.said['count'] if case.said['count'].isdigit() else 4}")]],
    "power": it.swapped(r"([\w.]+)\s*\*\*\s*([\w.]+|\([^()]*\))", r"(1 << \2)"),
    "division": it.swapped(r"//", "/"),
    "closing": lambda case: [it.whole_text(case, lambda text: text[: at_of(case)] + text[at_of(case) + 1 :]), it.whole_text(case,
        lambda text: "(" + text)][: 2 if "`(`" in case.said["more"] else 1],
    "two points": it.swapped(r"\.\.", "."),
    "colon point": lambda case: [it.whole_text(case, lambda text: re.sub(r"(?<=[\w\])])::?(?=" + case.said["near"].rpartition(".")[2].partition("<")[0] +
        r"\b)", ".", text))],
    "minus": rows(lambda case: [re.sub(r": - +", ": -", case.row)]),
    "range": lambda case: [it.whole_text(case, lambda text: "1 <= 2 and 2 <= 3")],
    "word": lambda case: [operator(case)],
    "comment mark": lambda case: [commented(case)],
    "comment inside": lambda case: [uncommented(case)],
    "end sign": lambda case: [[case.with_row(case.row.rstrip()[:-1])]] if case.code == "Y8" else [it.whole_text(case,
        lambda text: text.rstrip().rstrip(";,?").strip())],
    "counted up": lambda case: [it.whole_text(case, lambda text: text.rstrip()[:-2] + " " + case.said["near"])],
    "named argument": lambda case: [it.whole_text(case, lambda text: re.sub(r"(?<=[(,])\s*[a-z_]\w*\s*[:=]\s*(?![:=])", "", text))],
    "numbered point": lambda case: [it.whole_text(case, lambda text: re.sub(r"\.\s*(\d+)", r"[\1]", text, count=1)), it.whole_text(case,
        lambda text: re.sub(r"\.\s*(\d+)", r" >> \1 & 1", text, count=1))],
    "enum colon": lambda case: [it.whole_text(case, lambda text: re.sub(r"\b" + r"\s*(?::|->|/)\s*".join(case.said["near"].split("::")) + r"\b",
        case.said["near"], text)) + [one for key in case.places.keys if key.role == "cases" for one in it.renamed(case, key.key, case.said["near"])]],
    "not inside": lambda case: [it.whole_text(case, lambda text: re.sub(r"(?<=\s)not\s+([\w.]+|\([^()]*\))", r"(not \1)", text))],
    "two choose": choice(r"\b\w+\((?:[^()]|\([^()]*\))*\)"),
    "empty index": it.swapped(r"\[\s*\]", "[0]"),
    "if word": choice(r"(?s)\A.+\Z"),
    "some bits": it.set_to("type", "{near}"),
    "part of list": it.swapped(r"\[[^\[\]]*:[^\[\]]*\]", ".substring(0, 1)"),
    "type hyphen": it.set_to("type", "{near}"),
    "type arguments": it.set_to("type", "{example}"),
    "type point": it.set_to("type", "{near}"),
    "no expression": it.set_to("{key}", "1"),
    "open quote": lambda case: [twice_quoted(case)],
    "open bracket": lambda case: [behind(case)],
    "ended": lambda case: [it.whole_text(case, lambda text: text.rstrip() + " 1" + closing_of(text))],
    "one comparison": it.swapped(r"([\w.]+) *(<=?|>=?|[=!]=) *([\w.]+) *(<=?|>=?|[=!]=) *([\w.]+)", r"\1 \2 \3 and \3 \4 \5"),
    "half choice": lambda case: [it.whole_text(case, lambda text: f"{text} : 1")],
    "equals key": lambda case: [[case.with_row(re.sub(rf"\b({case.said['key']})\s*=\s*(.*)", new, case.row))] for new in (r"{\1: \2}",
        r"\1: \2")] or [["\n".join(re.sub(rf"\b({case.said['key']})\s*=\s*(.*)", r"\1: \2", row) for row in case.rows)]],
    "bound": lambda case: [bounded(case)],
    "lone quote": lambda case: [[case.with_row(it.put(case.row, at, at, case.said["sign"])) for at in range(len(case.row), 0,
        -1)] if case.code == "Y8" else twice_quoted(case)],
    "other closing": lambda case: [closed_by(case)],
    "crossed": lambda case: [before_place(case)],
    "list literal": lambda case: [[case.with_row(re.sub(r": \[.*", ": '1 == 0 ? 31 : 28'", case.row))] if case.code == "Y6" else it.whole_text(case,
        lambda text: re.sub(r"\[[^\[\]]*\](?:\[[^\[\]]*\])?", "(1 == 0 ? 31 : 28)", text))],
    **dict.fromkeys(("indentation", "below a value", "key of type", "item column"), it.columns),
    "no dash": item_or_key,
    "key again": it.without_second,
    "item again": it.item_again,
    **dict.fromkeys(("apostrophe", "inner quote"), it.quotes_inside),
    "after quote": unquoted,
    "dash item": below_key,
    "merge": rows(lambda case: [re.sub(r"<<: .*", "-zz: 1", case.row)]),
    "key of item": it.columns,
    "lone closing": rows(lambda case: [case.row.replace(case.said["sign"], "", 1)]),
    "dash above": dash_above,
    "key quote": rows(lambda case: [re.sub(r"(?<!:):(?!:)", f"{case.said['sign']}:", case.row, count=1)]),
    "front quote": rows(lambda case: [re.sub(r"(: +)(?=[^ ])", rf"\1{case.said['sign']}", case.row, count=1), re.sub(r"( *)", rf"\1{case.said['sign']}",
        case.row, count=1)]),
    "item again above": rows(lambda case: [re.sub(r"( *)", r"\1- ", case.row, count=1)]),
    "flow sign": rows(lambda case: [case.row.replace(case.said["sign"], ",")]),
    "yaml escape": single_quoted,
    "escaped quote": single_quoted,
    "quote": quote_behind,
    "quote inside": lambda case: [[case.with_row(it.put(case.row, at, at, case.said["sign"])) for at in range(len(case.row), 0, -1)]],
    "bracket": it.closed,
    "flow entry": lambda case: [[case.with_row(re.sub(rf"(?<=[{{,])(\s*{re.escape(case.said['key'])})\s*:?\s*(?=[,}}])", r"\1: 1", case.row, count=1))]],
    "flow space": spaced,
    "flow colon": lambda case: [[text for front in (case.said["near"].partition(":")[0],) for old in (" ", "=", " = ", " -> ",
        " := ") for text in it.in_row(case, f"{front}{old}", f"{front}: ")]],
    "foreign sign": rows(lambda case: [case.row.replace(case.said["sign"], case.said["near"], 1), re.sub("[“”„«»″]", '"', case.row), re.sub("[‘’′´]", "'",
        case.row)]),
    "underscore": lambda case: [it.whole_text(case, lambda text: re.sub(r"[0-9]+(?:_+[0-9]+)*_+|[0-9]+(?:__+[0-9]+)+", case.said["near"], text))],
    "joined texts": it.swapped(r"\s*\.\s*(?=[\"'])", " + "),
    "path sign": lambda case: [it.whole_text(case, lambda text: re.sub(r"[$@](?=root|parent)", "_", text) if text[:1] in "$@" else re.sub(r"\A[./]+" +
        case.said["near"].partition(".")[2], case.said["near"], text))],
    "last comma": it.swapped(r",\s*\)", ")"),
    "cast": it.swapped(r"\.\s*as\s*<[^<>]*>", ""),
    "assigned": lambda case: [it.whole_text(case, lambda text: re.sub(rf"\b{case.said['name']}\s*:=\s*", "", text))],
    "variable": lambda case: [[case.with_row(f"instances: {{{case.said['name']}: {{value: {case.said['value']}}}}}")]],
    "no space": spaced,
    "no colon": coloned,
    "dash space": dashed,
    "dash brace": rows(lambda case: [re.sub(r"^( *(?:- +)*)-(?=[{\[])", r"\1- ", case.row)]),
    "open flow": lambda case: [[moved for column in range(int((re.findall(r"\d+", case.said["columns"]) or ["0"])[0]), 12) for moved in flow_rows(case,
        column)]],
    "argument name": lambda case: [[case.with_row(re.sub(r"(?<=[(,])\s*[a-z]\w*: ", "", case.row))]],
    "parentheses": lambda case: [[case.with_row(re.sub(r"[\[(](.*)[\])]", r"{\1}", case.row))]],
    "other dash": lambda case: [[at.with_row(at.row.replace(case.said["sign"], "-", 1)) for at in [case.at(it.where(case))]]],
    "flow comma": parted,
    "extra sign": rows(lambda case: [drop_last(case.row, case.said["sign"])]),
    "flow text": flow_texts,
    "after bracket": it.quoted_row,
    "question": rows(lambda case: [case.row.replace("? ", "", 1), case.row.replace("? ", "", 1).rstrip() + ":"]),
    "dash": it.quoted_row,
    "directive": lambda case: [[case.with_row()]],
    "marker": cut,
    "marker alone": lambda case: [[case.at(it.where(case)).with_row("---")]],
    "comment begin": lambda case: [[at.with_row(at.row.replace(case.said["sign"], "#", 1)) for at in [case.at(it.where(case))]]],
    "empty": lambda case: [["meta: {id: t}\n"]],
    "comment sign": rows(lambda case: [re.sub(r"(?<=\S)#", " #", case.row)]),
    "braces": lambda case: [[case.with_row(re.sub(rf"{re.escape(case.said['key'])}: .*", f"{case.said['key']}: {{{case.said['value']}}}", case.row))]],
    "text lines": it.block_of,
    "pair in list": rows(lambda case: [re.sub(r"\[(.*)\]", r"[{\1}]", case.row), re.sub(r"\[(.*)\]",
        lambda one: "[" + ", ".join(f"{{{part.strip()}}}" for part in one[1].split(",")) + "]", case.row)]),
    "control": rows(lambda case: [re.sub("[\x00-\x08\x0b-\x1f\x7f-\x9f]", "", case.row)]),
    "block empty": lambda case: [[deeper(case)]],
    "comment": lambda case: [[case.with_row(re.sub(r"(: )(.*)", r"\1'\2'", case.row))]],
}
# Why nothing is made of a hint: it says a rule and leaves the text of it to a person.
SAID: Dict[str, str] = {
    **dict.fromkeys(("fraction", "switched endian", "present place", "io parameter"), "it takes another way to read what is meant"),
    **dict.fromkeys(("key", "missing key", "against", "unknown name", "value", "feature", "form", "left out form", "count of arguments", "key place",
        "key twice", "not closed", "indentation alone",
                     "unclear character", "character", "early end", "stream", "limit", "types", "members", "length", "depth", "number", "long", "memory",
                         "utf", "enum range", "digits", "sign of expression"), "a rule"),
    **dict.fromkeys(("empty cast", "three quotes"), "what is meant decides"),
    **dict.fromkeys(("no member", "no enum member", "no enum", "no type", "capital type", "member of type", "index", "element", "under a value",
        "declaration", "no null", "odd integer", "one type", "enum path", "enum inside", "description", "id"), "a person knows which"),
    **dict.fromkeys(("other method", "method", "call", "asked for", "other function", "unit", "two values", "lone colon"), "what is meant decides"),
    **dict.fromkeys(("one value", "text of number", "wrapped"), "what is meant decides"),
    **dict.fromkeys(("entry list", "listed case", "key of no instance",
        "key below item", "switch beside", "type key as type", "list in type", "block line", "flow parts", "two commas", "no key", "list of key",
        "mapping of key", "nothing below"), "more than the line moves"),
}


def alternatives(text: str, line: int, code: str, told: str, hint: Hint) -> List[Texts]:
    """What comes out of each thing that a hint proposes; nothing where it proposes none, or none of it could be made."""
    if hint.kind not in MADE:
        return []
    try:
        found = MADE[hint.kind](Case(text, line, code, hint, it.said(hint), told))
    except KeyError:
        # What is too long to be said is cut.
        if " .." not in hint.text:
            raise
        return []
    return [texts for texts in ([one for one in some if one != text] for some in found) if texts]
