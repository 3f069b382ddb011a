"""Hints on keys: one that isn't known, one that is missing, and two that exclude each other."""
from __future__ import annotations

import re
from typing import Dict, Iterator, List, Optional, Sequence, Tuple

from front.hints import foreign, lines, schema
from front.hints.kinds import Hint, say
from front.hints.near import near, plain
from front.hints.node import Node, Pair
from front.hints.places import Place, Places, Start
from front.hints.scope import IDENTIFIER, Type

NAME = re.compile(r"[a-z][a-z0-9_:]*\Z")
INTEGER = re.compile(r"[us](?:1|[248](?:le|be)?)\Z|b(?:[1-9]|[1-5]\d|6[0-4])(?:le|be)?\Z")
# Words that people write for keys, the key, and what it is.
WORDS: Dict[str, Tuple[str, str]] = {
    **dict.fromkeys(("length", "len", "bytes", "byte-size", "num-bytes"), ("size", "how many bytes there are")),
    **dict.fromkeys(("offset", "ofs", "position", "at", "start"), ("pos", "where an instance begins")),
    **dict.fromkeys(("count", "repeat-count", "num", "times"), ("repeat-expr", "beside `repeat: expr`, how many elements there are")),
    **dict.fromkeys(("until", "while"), ("repeat-until", "beside `repeat: until`, which element is the last")),
    **dict.fromkeys(("repeat-eos", "repeat-all"), ("repeat: eos", "to the end of the stream")),
    **dict.fromkeys(("condition", "when", "cond", "elif", "else-if"), ("if", "whether it is there")),
    **dict.fromkeys(("magic", "signature", "const", "bytes-value"), ("contents", "bytes that must be there")),
    **dict.fromkeys(("fields", "attributes", "sequence", "members"), ("seq", "the list of attributes")),
    **dict.fromkeys(("name", "field"), ("id", "the name")),
    **dict.fromkeys(("byte-order", "byteorder", "endianness"), ("endian", "the order of bytes")),
    **dict.fromkeys(("charset", "codec", "encode"), ("encoding", "what letters the bytes are")),
    **dict.fromkeys(("description", "desc", "comment", "comments", "note", "notes", "documentation"), ("doc", "what is said about it")),
    **dict.fromkeys(("parameters", "args", "arguments"), ("params", "the list of parameters")),
    **dict.fromkeys(("structs", "subtypes", "type-defs"), ("types", "the mapping of types")),
    **dict.fromkeys(("enumerations", "constants"), ("enums", "the mapping of enums")),
    **dict.fromkeys(("switch", "on", "switch_on"), ("switch-on", "the value that chooses")),
    **dict.fromkeys(("case",), ("cases", "the mapping of values and types")),
    **dict.fromkeys(("in", "one-of", "oneof", "anyof", "values"), ("any-of", "the list of values that there may be")),
    **dict.fromkeys(("minimum", "least", "gt", "ge"), ("min", "the least value")),
    **dict.fromkeys(("maximum", "most", "lt", "le"), ("max", "the greatest value")),
    **dict.fromkeys(("equals", "equal"), ("eq", "the value")),
    **dict.fromkeys(("expression",), ("expr", "what must be true")),
    **dict.fromkeys(("include-terminator", "keep-terminator"), ("include", "whether the terminator is a part of the value")),
    **dict.fromkeys(("consume-terminator", "skip-terminator"), ("consume", "whether what follows begins behind the terminator")),
}
# Words that people write for the case of all other values.
OTHERS = ("default", "else", "otherwise")
# Keys that other readers of such descriptions have.
UNREAD = ("to-string", "ks-debug", "generic", "zero-copy-substream", "doc-url", "sizeof", "<<")
# What is said of a key in a switch that is none of it.
SWITCH = "a switch has `switch-on` and `cases`; keys of the attribute are beside `type`, and a type is written under `types`"
# Where a key belongs that is none of the mapping that it is in.
TYPE_KEYS = "a key of the root, and of each type under `types`"
PLACES: Dict[str, str] = {
    **dict.fromkeys(("pos", "io"), "only an instance has it: write the attribute under `instances`, by its name"),
    "value": "only an instance has it: write it under `instances`, by its name",
    "endian": "it is a key of `meta`; of one integer the order is in its type, as `u4le`",
    "bit-endian": "it is a key of `meta`",
    "encoding": "it is a key of `meta`, and of an attribute of type `str` or `strz`",
    **dict.fromkeys(("switch-on", "cases"), "it is in a mapping that `type` has: `type: {switch-on: .., cases: ..}`"),
    **dict.fromkeys(schema.KEYS["valid"], "it is in a mapping that `valid` has: `valid: {min: 1}`"),
    **dict.fromkeys(("meta", "seq", "types", "instances", "enums", "params"), f"it is {TYPE_KEYS}"),
    **dict.fromkeys(schema.IGNORED["meta"] + schema.LEFT_OUT["meta"], "it is a key of `meta`"),
    **dict.fromkeys(schema.FIELD.split()[:-1], "it is a key of an attribute or instance"),
    "valid": "only an attribute or instance has it",
    "parent": "leave it out, `_parent` is always the object that holds this one",
    **dict.fromkeys(schema.LEFT_OUT["attribute"], "it is a key of an attribute, and isn't read: leave it out"),
}


def unknown(places: Places) -> Optional[Hint]:
    """What to say of a key that isn't known (S1)."""
    found = [it for it in places.keys if it.key and not schema.is_known(it.role, it.key) and it.role in schema.KEYS]
    named = [it for it in found if it.role in ("attribute", "parameter") and not it.around.has("id") and len(it.around.pairs) == 1]
    hints = [of_typed(it) for it in named] + [of_key(it.key, it.role, it.around, "", it.value) for it in found]
    return next((it for it in hints if it), None) or (general(found[0], empty_block(places)) if found else None)


def of_typed(place: Place) -> Optional[Hint]:
    """What to say of an item that has a name with a type, as of this or another language; None where it is something else."""
    text, is_known = place.value.text, foreign.is_type(place.value.text)
    if not IDENTIFIER.match(place.key) or not is_known or place.value.kind != "text":
        return None
    kind = text if foreign.BUILT_IN.match(text) else foreign.integer(text.lower())
    return say("typed name", key=place.key, role=schema.NAMES[place.role], type=kind) if kind else None


def empty_block(places: Places) -> int:
    """The number of the line above, if that is a key whose block text has no line; 0 where it isn't."""
    outline, row = places.outline, places.outline.row_at(places.begin - 1) if places.begin else -1
    is_it = row >= 0 and outline.inline(row) in ("|", ">") and outline.line(outline.starts[row]) == places.number - 1
    return places.number - 1 if is_it else 0


def general(place: Place, number: int) -> Hint:
    """What is always true of an unknown key: the keys that there are; or how an attribute is written, where it looks like one; or the block text above, by its
    number, that has no line."""
    text = place.value.text
    is_alone = place.role == "type" or place.role == "attribute" and not place.around.has("id")
    if place.role == "type" and place.value.kind == "map" and IDENTIFIER.match(place.key) and any(place.value.has(it) for it in schema.KEYS["type"]):
        return say("type at key", key=place.key, role=schema.NAMES[place.role])
    is_type = NAME.match(text) and (foreign.BUILT_IN.match(text) or place.type.find(text.split("::")))
    if is_alone and place.value.kind == "text" and IDENTIFIER.match(place.key) and is_type:
        return say("attribute form", key=place.key, role=schema.NAMES[place.role], type=text)
    if place.role == "attribute" and not place.around.has("id") and place.value.kind == "map" and IDENTIFIER.match(place.key):
        return say("named item", key=place.key)
    if number and not place.around.is_flow:
        return say("block empty", line=number)
    keys = ", ".join(f"`{it}`" for it in schema.KEYS[place.role])
    return say("unknown key", key=place.key, role=schema.NAMES[place.role], keys=keys)


def of_key(key: str, role: str, around: Optional[Node], where: str, value: Optional[Node] = None) -> Optional[Hint]:
    """What an unknown key is: one that is written otherwise, one that is near, another word for one, or one of another mapping; None where it is none."""
    known = [*schema.KEYS[role], *schema.LEFT_OUT.get(role, ()), *schema.IGNORED.get(role, ()), "doc", "doc-ref"]
    name = schema.NAMES[role]
    one = other_number(key, role, value)
    there = next((it for it in known if plain(it) == plain(key) and around is not None and around.kind == "map" and around.has(it)), None)
    if there:
        return say("key there", where=where, key=key, role=name, near=there)
    if one:
        return say("near key", where=where, key=key, role=name, near=one)
    if key in PLACES or key == "id" or role == "switch" and key in OTHERS:
        return elsewhere(key, role, where)
    same = next((it for it in known if plain(it) == plain(key)), None)
    near_one = near(key, known)
    if (same or near_one) in schema.LEFT_OUT.get(role, ()):
        return say("key elsewhere", where=where, key=key, role=name, place=f"if `{same or near_one}` is meant, that isn't read: leave it out")
    if same:
        return say("key as written", where=where, key=key, near=same)
    if key in UNREAD:
        return say("unread key", key=key)
    word, what = ("", "") if near_one else other_word(key, known)
    if (near_one or word) and around is not None and around.kind == "map" and around.has(near_one or word):
        return say("key there", where=where, key=key, role=name, near=near_one or word)
    if near_one:
        return say("near key", where=where, key=key, role=name, near=near_one)
    if word == "size" and around is not None and around.kind == "map" and INTEGER.match(around.said("type")):
        return say("own size", where=where, key=key, role=name, type=around.said("type"))
    if word:
        return say("other word", where=where, key=key, role=name, what=what, near=word)
    moved = next((it for it in PLACES if plain(it) == plain(key)), None) or near(key, PLACES)
    return elsewhere(moved, role, where, key) if moved and len(key) > 3 else None


def other_word(key: str, known: Sequence[str]) -> Tuple[str, str]:
    """The one of some keys that a word is which people write for it, or one that is near such a word, and what it is; empty texts where there is none."""
    written = key.partition("(")[0].strip().lower().replace("_", "-")
    words = {it: found for it, found in WORDS.items() if found[0].split(":")[0] in known}
    near_one = written if written in words else near(written, words) if len(written) > 3 else None
    return words[near_one] if near_one else ("", "")


def other_number(key: str, role: str, value: Optional[Node]) -> str:
    """The key that a word is in its other number: `enums` with a name is `enum`, and `enum` of a type is `enums`; the empty text where it is none."""
    one, many = key[:-1] if key.endswith("s") else "", f"{key}s"
    if value is not None and value.kind == "text" and value.text and one in schema.KEYS[role] and key in schema.KEYS["type"]:
        return one
    return many if role == "type" and value is not None and value.kind != "text" and many in schema.KEYS["type"] else ""


def elsewhere(key: str, role: str, where: str, written: str = "") -> Hint:
    """What a key of another mapping is."""
    place = PLACES.get(key, "")
    if role in ("switch", "valid", "entry"):
        place = "the case of all other values is `_`, under `cases`" if key in OTHERS else schema_of(role)
        place = SWITCH if role == "switch" and key not in OTHERS else place
    elif key == "id":
        place = "the key that it is under is its name" if role != "type" else "the root's is in `meta`; of any other type the key that it is under is its name"
    elif role == "value":
        place = "beside `value` there are only `if`, `enum` and `valid`"
    elif role == "parameter":
        place = "a parameter has an `id`, and perhaps `type` and `enum`"
    elif role == "type" and key in schema.FIELD.split():
        place = "it is a key of an attribute, in an item of `seq`, or of an instance"
    if key in schema.KEYS["type"] and role == "meta":
        place += ", with fewer spaces before it"
    if key == "seq" and role in ("attribute", "instance"):
        place += "; write a type that has it, and here the name of that, as `type`"
    written_as = f"`{key}`: " if written and written != key else ""
    return say("key elsewhere", where=where, key=written or key, role=schema.NAMES[role], place=written_as + place)


def schema_of(role: str) -> str:
    """Which keys a mapping has."""
    return f"it has {', '.join(f'`{it}`' for it in schema.KEYS[role])}"


# Keys that are missing


def missing(places: Places) -> Optional[Hint]:
    """What to say of a mapping that lacks a key (S2): a key of it that is misspelt, or which one it is."""
    for start in places.starts:
        lacked = lacks(start)
        at = next((it.at for it in start.node.pairs if it.key == "size-eos" and it.value.text not in ("true", "false")), -1)
        if lacked and "size-eos" in lacked[0] and at >= 0:
            return say("truth below", line=lines.number(places.outline.text, at))
        if lacked:
            return misspelt(places, start, lacked[0]) or below_item(places, start, lacked[0]) or lacked[1]
    return None


def below_item(places: Places, start: Start, wanted: Tuple[str, ...]) -> Optional[Hint]:
    """What to say of an item whose missing key is on the line after it, beside the key of its list; None where it isn't there."""
    outline = places.outline
    row = outline.row_at(start.node.at)
    chain = outline.around(row) if row >= 0 else []
    key_row = next((it for it in chain if outline.key(it) == "seq"), None)
    after = next((it for it in range(row + 1, len(outline.starts)) if outline.starts[it] >= start.node.stop), None) if key_row is not None else None
    if after is None or outline.key(after) not in wanted or outline.around(after)[1:] != outline.around(key_row)[1:]:
        return None
    columns = start.node.at - outline.text.rfind("\n", 0, start.node.at) - 1
    return say("key below item", line=outline.line(outline.starts[after]), key=outline.key(after), columns=f"{columns} spaces")


def lacks(start: Start) -> Optional[Tuple[Tuple[str, ...], Hint]]:
    """The keys of which a mapping lacks one, with what is said then; None where it lacks none."""
    node, role = start.node, start.role
    if role == "type" and start.type.outer is None and start.key == "":
        return None if node.has("meta") else (("meta",), say("no meta"))
    if role == "meta":
        return None if node.has("id") or start.type.outer else (("id",), say("no meta id"))
    if role in ("parameter", "entry"):
        return None if node.has("id") else (("id",), say("no id"))
    if role == "valid":
        is_there = any(not schema.is_ignored("valid", it.key) for it in node.pairs)
        return None if is_there else (schema.KEYS["valid"], say("no check"))
    if role == "switch":
        lost = next((it for it in ("switch-on", "cases") if not node.has(it)), None)
        return ((lost,), say(f"no {lost}")) if lost else None
    if role == "attribute" or role == "instance" and node.has("pos") and not node.has("value"):
        return attribute_lacks(node, start.type)
    return None


def attribute_lacks(node: Node, one: Type) -> Optional[Tuple[Tuple[str, ...], Hint]]:
    """The keys of which an attribute lacks one."""
    kind = node.said("type").partition("(")[0].strip() if node.has("type") else None
    is_sized = node.has("size") or node.has("terminator") or node.said("size-eos") == "true"
    if kind is None and not is_sized and not node.has("contents"):
        return ("type", "size", "size-eos", "terminator", "contents"), say("no content", wanted=contents_of(node))
    if kind in ("str", "strz") and not is_sized and node.has("contents"):
        return ("size", "size-eos", "terminator"), say("beside contents", key="type")
    if kind == "str" and not is_sized:
        return ("size", "size-eos", "terminator"), say("no text size")
    if kind in ("str", "strz") and not has_text(node, "encoding") and not one.stated("encoding"):
        return ("encoding",), say("no encoding", type=kind)
    word = node.said("repeat")
    if word in ("expr", "until") and not node.has(f"repeat-{word}"):
        return (f"repeat-{word}",), say("no count", word=word)
    return None


def contents_of(node: Node) -> str:
    """What an attribute needs one of, beside the keys that it has."""
    if node.has("enum"):
        return "`type`, an integer,"
    return "`type`, `size`, `size-eos: true`" + (" or `terminator`" if node.has("valid") else ", `terminator` or `contents`")


def has_text(node: Node, key: str) -> bool:
    """Whether a mapping has a key with a text."""
    found = node.get(key)
    return found is not None and found.kind == "text"


def misspelt(places: Places, start: Start, wanted: Tuple[str, ...]) -> Optional[Hint]:
    """A key of the mapping, or of `meta` for an encoding, that is near one that is missing; None where there is none."""
    role = start.role
    mappings: List[Tuple[Node, str]] = [(start.node, role)]
    metas = [it.node.get("meta") for it in start.type.around()] if wanted == ("encoding",) else []
    for node, kind in mappings + [(it, "meta") for it in metas if it]:
        for it in node.pairs:
            if schema.is_known(kind, it.key):
                continue
            where = f"line {lines.number(places.outline.text, it.at)}: "
            same = next((one for one in wanted if plain(one) == plain(it.key)), None)
            if same:
                return say("key as written", where=where, key=it.key, near=same)
            near_one = near(it.key, wanted)
            if near_one:
                return say("near key", where=where, key=it.key, role=schema.NAMES[kind], near=near_one)
            word, what = other_word(it.key, wanted)
            if word:
                return say("other word", where=where, key=it.key, role=schema.NAMES[kind], what=what, near=word)
            if it.key in PLACES and role == "attribute":
                return elsewhere(it.key, role, where)
    other = next((it for it in start.node.pairs if role == "attribute" and not schema.is_known(role, it.key)), None)
    return say("beside missing", wanted=contents_of(start.node), line=lines.number(places.outline.text, other.at),
        key=other.key) if other and "contents" in wanted else None


# Keys against each other


def against(places: Places) -> Optional[Hint]:
    """Which two keys exclude each other (S3), or which name is there twice."""
    for it in places.keys:
        hint = twice(places, it)
        if hint:
            return hint
    seen = set()
    for it in places.keys:
        for node, role in ((it.around, it.role), (it.attribute, it.attribute_role)):
            if node is None or id(node) in seen:
                continue
            seen.add(id(node))
            for first, hint in exclusions(node, role):
                if places.begin <= first < places.end:
                    return hint
    return None


def twice(places: Places, place: Place) -> Optional[Hint]:
    """A name or number that was there before."""
    number = lambda at: lines.number(places.outline.text, at)  # noqa: E731
    if place.key == "id" and place.role in ("attribute", "parameter") or place.role == "instances":
        name = place.value.text if place.key == "id" else place.key
        others = [it for it in place.type.members.get(name, []) if it.at != place.at]
        return say("id twice", name=name, line=number(others[0].at)) if others else None
    if place.role == "enum":
        value = whole(place.key)
        before = [it for it in place.around.pairs if it.at < place.at]
        same = next((it for it in before if value is not None and whole(it.key) == value), None)
        if same:
            return say("number twice", name=place.key, line=number(same.at))
    if place.role == "enum" or place.role == "entry" and place.key == "id":
        pairs = place.around.pairs if place.role == "enum" else next((it.value.pairs for it in enums_of(place.type) if place.around in [one.value for one in
            it.value.pairs]), [])
        name = place.value.text or place.value.said("id")
        same = next((it for it in pairs if it.at < place.at and it.value is not place.around and (it.value.text or it.value.said("id")) == name and name), None)
        return say("member twice", name=name, line=number(same.at)) if same else None
    return None


def enums_of(one: Type) -> List[Pair]:
    """The enums of a type."""
    found = one.node.get("enums")
    return found.pairs if found else []


def whole(text: str) -> Optional[int]:
    """The number that a key of an enum is; None where it is none."""
    if re.fullmatch(r"0x[0-9a-fA-F]{1,16}", text):
        return int(text, 16)
    return int(text) if re.fullmatch(r"-?\d{1,20}", text) else None


def exclusions(node: Node, role: str) -> Iterator[Tuple[int, Hint]]:
    """Each two keys of a mapping that exclude each other: where the first is, and what is said."""
    at = {it.key: it.at for it in reversed(node.pairs)}
    if role in ("instance", "value") and "value" in at:
        for key in schema.AGAINST_VALUE:
            if key in at:
                which = "one of them" if key in ("pos", "io") or "pos" in at else f"`{key}`"
                yield min(at[key], at["value"]), say("beside value", key=key, which=which)
    elif role == "valid":
        keys = [it for it in schema.KEYS["valid"] if it in at]
        if len(keys) > 1 and set(keys) != {"min", "max"}:
            other = keys[1] if keys[0] != "min" else next(it for it in keys if it not in ("min", "max"))
            yield min(at[it] for it in keys), say("two checks", one=keys[0], other=other)
    elif role in ("attribute", "instance"):
        yield from attribute_exclusions(node, at)


def attribute_exclusions(node: Node, at: Dict[str, int]) -> Iterator[Tuple[int, Hint]]:
    """Each two keys of an attribute that exclude each other."""
    is_eos = node.said("size-eos") == "true"
    if "size" in at and is_eos:
        yield min(at["size"], at["size-eos"]), say("two sizes")
    for key in schema.AGAINST_CONTENTS:
        if "contents" in at and key in at:
            yield min(at["contents"], at[key]), say("beside contents", key=key)
    sizes = [it for it in schema.AGAINST_INTEGER if it in at and (it != "size-eos" or is_eos)]
    kind, cases = node.said("type"), node.get("type").get("cases") if node.has("type") and node.get("type").kind == "map" else None
    for key in sizes:
        said = "size-eos: true" if key == "size-eos" else key
        if INTEGER.match(kind):
            yield min(at["type"], at[key]), say("integer size", type=kind, key=said)
        for it in cases.pairs if cases else []:
            if INTEGER.match(it.value.text):
                yield min(it.at, at[key]), say("case size", type=it.value.text, key=said)
    for word in ("expr", "until"):
        if f"repeat-{word}" in at and node.said("repeat") != word:
            yield at[f"repeat-{word}"], say("no repeat", key=f"repeat-{word}", word=word)
    if "enum" in at and not INTEGER.match(kind):
        what = f"`type` is `{kind}`" if kind else "`type` is a switch" if cases else "there is no `type`"
        yield at["enum"], say("enum of none", what=what)
