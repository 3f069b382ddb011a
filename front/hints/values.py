"""Hints on values: one that its key doesn't have (S6), and a limit (S9)."""
from __future__ import annotations

import re
from typing import Callable, Dict, Optional, Sequence

from front.hints import lines, schema
from front.hints.kinds import Hint, say
from front.hints.near import near as near_name, plain
from front.hints.places import Place, Places
from front.hints.scope import IDENTIFIER, members_of

TRUTHS = ("size-eos", "consume", "include", "eos-error")
WORDS = {"repeat": ("eos", "expr", "until"), "endian": ("le", "be"), "bit-endian": ("be",)}
MEANT = {
    **dict.fromkeys(("little", "littleendian", "lsb", "lsbfirst", "intel", "<"), "le"), "eof": "eos",
    **dict.fromkeys(("big", "bigendian", "msb", "msbfirst", "motorola", "network", ">"), "be"),
}
NUMBER = re.compile(r"(?:0x[0-9a-fA-F]+|[0-9]+)\Z")
SIGNED = re.compile(r"(?:0x[0-9a-fA-F]+|-?[0-9]+)\Z")
# What is in the keys of a type, as an example.
EXAMPLES = {
    "meta": "`meta: {id: a}`", "types": "each type under its name, `name: {seq: []}`", "instances": "each instance under its name, `name: {value: 1}`",
    "enums": "each enum under its name, `name: {1: one}`", "type": "`{seq: []}`", "instance": "`{value: 1}`, or with `pos`", "enum": "`{1: one}`",
}
# What people write for several values.
SEVERAL = re.compile(r"\d *(?:\.\.|,|-|\|) *\d")
# Words that people write for the case of all other values.
OTHERS = ("default", "else", "otherwise", "other")
# How many members of an enum are looked at.
MOST = 4000
ITEMS = {"seq": "attribute", "params": "parameter"}


def bad(places: Places) -> Hint:
    """What to say of a name or a value that isn't one (S6)."""
    for it in places.keys:
        hint = of_place(it)
        if hint:
            return of_lines(places, it) or hint
    root = places.outline.root
    return say("description") if root.kind != "map" and places.begin <= root.at < places.end else say("value")


def of_lines(places: Places, place: Place) -> Optional[Hint]:
    """What to say where a mapping is wanted, and below its key is a line without a colon; None where that isn't so."""
    text, value = places.outline.text, place.value
    is_below = value.kind == "text" and not value.mark and value.at >= places.end
    found = re.match(r"([A-Za-z0-9_][\w-]*) *(?:=>?|->)? *[\w.\"'-]+", value.text)
    is_it = is_below and found and place.role in ("types", "instances", "enums", "type") and place.key not in ITEMS
    return say("no colon", where=f"line {lines.number(text, value.at)}: ", key=found[1]) if is_it else None


def of_place(place: Place) -> Optional[Hint]:
    """What is wrong with a key's value, or an item; None where that is right."""
    if place.role in ("types", "instances", "enums"):
        return of_entry(place)
    if place.role in ITEMS:
        more = ", type: u1" if place.role == "seq" else ""
        return None if place.value.kind == "map" or place.key else say("item wanted", item=ITEMS[place.role], more=more)
    found: Dict[str, Callable[[Place], Optional[Hint]]] = {
        "type": of_type_key, "enum": of_number, "entry": of_id, "cases": of_case, "choices": of_choice, "bytes": of_byte, "meta": of_meta,
        "attribute": of_field, "instance": of_field, "value": of_field, "parameter": of_parameter, "switch": of_switch, "valid": of_valid,
    }
    return found[place.role](place) if place.role in found else None


def of_name(written: str, key: str = "") -> Hint:
    """What a name that isn't one would be."""
    if not written:
        return say("id")
    if re.fullmatch(r"[a-z][a-z0-9_]*#.*", written):
        return say("comment sign")
    commented = re.search(r"\s(//|/\*|--|;)", written)
    if commented:
        return say("comment mark", sign=commented[1], where="")
    listed = re.fullmatch(r"([A-Za-z]\w*) *\[ *(\w*) *\]", written)
    if listed and key == "id" and snake(listed[1]):
        return say("listed name", key=key, name=snake(listed[1]), count=listed[2] or "n")
    name = snake(re.split(r"[<(\[{]", written)[0]) or snake(written)
    return say("name", name=name) if name and name != written else say("name")


def snake(written: str) -> str:
    """A name in small letters, with `_` between its words; the empty text where none comes out."""
    found = re.sub(r"(?<=[a-z0-9])(?=[A-Z])", "_", written[:100]).lower()
    found = re.sub(r"[^a-z0-9]+", "_", found).strip("_")
    return found if IDENTIFIER.match(found) else ""


def of_entry(place: Place) -> Optional[Hint]:
    """The name of a type, an instance or an enum, and what it has."""
    if not IDENTIFIER.match(place.key):
        return of_name(place.key)
    inner = place.role[:-1]
    if place.value.kind != "map" and place.key in schema.KEYS["type"]:
        return say("type key as type", key=place.key, what=f"{'a' if inner == 'type' else 'an'} {inner}")
    if inner == "type" and place.value.kind == "list":
        return say("list in type", key=place.key)
    if place.value.kind == "list":
        return say("entry list", key=place.key, example=f"as in {EXAMPLES[inner]}")
    return None if place.value.kind == "map" else say("entry wanted", key=place.key, example=EXAMPLES[inner])


def of_id(place: Place) -> Optional[Hint]:
    """An `id`."""
    if place.key != "id":
        return None
    if place.value.kind != "text":
        return say("text wanted", key="id")
    return None if IDENTIFIER.match(place.value.text) else of_name(place.value.text, "id" if place.role == "attribute" else "")


def of_type_key(place: Place) -> Optional[Hint]:
    """What a key of a type has: a list, or a mapping."""
    if place.key in ITEMS:
        return None if place.value.kind == "list" else say("list wanted", key=place.key, item=ITEMS[place.key])
    if place.key in EXAMPLES and place.value.kind == "text" and not place.value.text and not place.value.mark:
        return say("nothing below", key=place.key, example=EXAMPLES[place.key])
    if place.key in EXAMPLES and place.value.kind != "map":
        return say("mapping wanted", key=place.key, example=EXAMPLES[place.key])
    return None


def of_meta(place: Place) -> Optional[Hint]:
    """A key of `meta`."""
    if place.key == "bit-endian" or place.key == "endian" and place.value.kind != "map":
        return of_word(place)
    if place.key == "encoding" and place.value.kind != "text":
        return say("text wanted", key="encoding")
    return of_id(place)


def of_word(place: Place) -> Optional[Hint]:
    """A key that has one of some words."""
    words, text = WORDS[place.key], place.value.text
    if place.value.kind == "text" and text in words or place.key == "bit-endian" and text == "le":
        return None
    joined = re.fullmatch(r"(until|expr)[ :]+(\S.*)", text) if place.key == "repeat" else None
    if joined:
        return say("repeat joined", word=joined[1], value=joined[2])
    near = MEANT.get(plain(text)) or nearest(text.lower(), words)
    if near in words:
        return say("letter case", key=place.key, near=near)
    if place.key == "repeat" and (NUMBER.match(text) or text in place.type.members):
        return say("repeat count", count=f"repeat-expr: {text}") if text != "3" else say("repeat count")
    return say("repeat word") if place.key == "repeat" else say("one of", key=place.key, words=" or ".join(f"`{it}`" for it in words))


def nearest(text: str, words: Sequence[str]) -> Optional[str]:
    """The word that a text is, or the one that is near."""
    return text if text in words else near_name(text, words)


def of_parameter(place: Place) -> Optional[Hint]:
    """A key of a parameter."""
    if place.key in ("type", "enum") and place.value.kind != "text":
        return say("text wanted", key=place.key)
    return of_id(place)


def of_field(place: Place) -> Optional[Hint]:
    """A key of an attribute or an instance."""
    key, value = place.key, place.value
    if (("instance" if place.role == "value" else place.role), key) in schema.EXPRESSIONS and key != "valid":
        return None if value.kind == "text" else say("expression wanted", key=key, example="a + 1")
    if key == "type":
        return say("type wanted") if value.kind == "list" else None
    if key == "valid":
        is_bytes = not place.around.has("type") and value.kind == "list"
        return say("checked list", more="; bytes that must be there are `contents`" if is_bytes else "") if value.kind == "list" else None
    if key == "contents":
        return say("contents wanted") if value.kind == "map" else None
    if key == "repeat":
        return of_word(place)
    if key in TRUTHS:
        return None if value.kind == "text" and value.text in ("true", "false") else say("truth", key=key)
    if key == "terminator":
        return of_terminator(place)
    if key == "encoding" and value.kind != "text":
        return say("text wanted", key=key)
    if key == "enum" and value.kind == "map":
        return say("enum inside")
    if key == "enum":
        names = value.text.split("::") if value.kind == "text" else []
        if names and all(IDENTIFIER.match(it) for it in names):
            return None
        if re.fullmatch(r"[a-z][a-z0-9_]*(?:\.[a-z][a-z0-9_]*)+", value.text):
            return say("enum point", near=value.text.replace(".", "::"))
        return of_name(value.text) if re.fullmatch(r"[A-Za-z][\w-]*", value.text) else say("enum path")
    return of_id(place) if place.role == "attribute" else None


def of_terminator(place: Place) -> Optional[Hint]:
    """The byte that ends a value."""
    text = place.value.text
    if place.value.kind != "text":
        return say("terminator list")
    if NUMBER.match(text) and (int(text, 0 if text.startswith("0x") else 10) if len(text) < 20 else 256) <= 255:
        return None
    if place.value.mark and len(text) > 1 and not text.startswith("\\") and not text[0].isdigit():
        return say("terminator list")
    letter = {"\\n": "\n", "\\r": "\r", "\\t": "\t", "\\0": "\0"}.get(text, text)
    return say("terminator letter", number=ord(letter)) if len(letter) == 1 and ord(letter) < 128 and not letter.isdigit() else say("terminator")


def of_switch(place: Place) -> Optional[Hint]:
    """A key of a switch."""
    if place.key == "switch-on" and place.value.kind != "text":
        return say("expression wanted", key="switch-on", example="kind")
    if place.key == "cases" and place.value.kind == "text" and not place.value.text and not place.value.mark:
        return say("nothing below", key="cases", example="`cases: {1: u1}`")
    if place.key == "cases" and place.value.kind != "map":
        return say("mapping wanted", key="cases", example="`cases: {1: u1}`")
    return None


def of_valid(place: Place) -> Optional[Hint]:
    """A key of `valid`."""
    if place.key == "any-of":
        return None if place.value.kind == "list" and place.value.items else say("choices")
    if place.key in schema.KEYS["valid"] and place.value.kind != "text":
        return say("expression wanted", key=place.key, example="1")
    return None


def of_choice(place: Place) -> Optional[Hint]:
    """An item of `any-of`."""
    return None if place.value.kind == "text" else say("choices")


def of_byte(place: Place) -> Optional[Hint]:
    """An item of `contents`."""
    value = place.value
    if value.kind != "text":
        return say("contents wanted")
    return say("contents number") if not value.mark and NUMBER.match(value.text) else None


def of_case(place: Place) -> Optional[Hint]:
    """A case of a switch: what chooses, and what is chosen."""
    if place.value.kind != "text":
        return say("case wanted")
    if re.fullmatch(r"-?(?:0x[0-9a-fA-F]+|[0-9]+)|true|false|_|'.*'|\".*\"|[a-z_0-9]+(?:::[a-z_0-9]+)+", place.key):
        return None
    if place.is_quoted:
        return say("case text")
    if SEVERAL.search(place.key):
        return say("case each")
    if place.key in OTHERS:
        return say("other case")
    alone = re.fullmatch(r"(?:case|when) +(\S.*)", place.key)
    if alone:
        return say("case alone", near=alone[1])
    enum, _, name = place.key.rpartition(".")
    found = {it: members_of(of) for one in place.type.around() for it, of in one.enums.items() if len(of.pairs) < MOST}
    having = [it for it, members in found.items() if name in members and enum in ("", it)]
    return say("case member", enum=having[0], name=name) if len(having) == 1 else say("case key")


def of_number(place: Place) -> Optional[Hint]:
    """An entry of an enum: its number and its name."""
    key, value = place.key, place.value
    if SIGNED.match(key):
        is_inside = len(key) < 40 and -(2**63) <= int(key, 16 if key.startswith("0x") else 10) < 2**64
        if not is_inside:
            return say("enum range")
        return None if value.kind == "map" else say("text wanted", key=key) if value.kind == "list" else None if IDENTIFIER.match(value.text) else of_name(value.text)
    if value.kind == "text" and SIGNED.match(value.text):
        return say("enum order", number=value.text, name=snake(key) or "name")
    form = re.fullmatch(r"(-?)0(?:[xX]([0-9a-fA-F]{1,16})|o([0-7]{1,21})|b([01]{1,63}))", key)
    if form:
        number = int(form[2], 16) if form[2] else int(form[3], 8) if form[3] else int(form[4], 2)
        return say("number form", near=f"-{number}" if form[1] else f"0x{number:x}" if form[2] else number)
    moved = re.fullmatch(r"(\d{1,4}) *<< *(\d{1,2})", key)
    if moved:
        return say("number form", near=f"0x{int(moved[1]) << int(moved[2]):x}")
    name = value.text if value.kind == "text" and IDENTIFIER.match(value.text) else value.said("id") if value.kind == "map" else snake(key)
    return say("enum number", name=name or "name")


def of_zero(written: str) -> Hint:
    """What to say of a number with a zero before it: what it is in octal, where that is another number."""
    digits = written.replace("_", "").lstrip("-")
    is_octal = re.fullmatch(r"0[0-7]{2,20}", digits) and int(digits, 8) != int(digits)
    return say("zero", number=written, octal=int(digits, 8)) if is_octal else say("zero")


def limit(places: Places) -> Hint:
    """Which limit the line goes over (S9)."""
    found = {"types": "types", "seq": "members", "params": "members", "instances": "members", "enum": "limit"}
    kinds = {found[it.role] for it in places.keys if it.role in found}
    return say(kinds.pop()) if len(kinds) == 1 else say("limit")
