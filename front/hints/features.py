"""Hints on what isn't read (S8)."""
from __future__ import annotations

import re
from typing import Callable, Dict, List, Optional

from front.hints import foreign, formulas, keys, lines, tokens
from front.hints.formulas import Formula
from front.hints.kinds import Hint, say
from front.hints.node import Node
from front.hints.places import Place, Places, Start
from front.hints.schema import KEYS, PLACE_KEYS
from front.hints.values import of_zero

FLOAT = re.compile(r"f[48](?:le|be)?\Z")
LOW_BITS = re.compile(r"b(?:[1-9]|[1-5]\d|6[0-4])le\Z")
BITS = re.compile(r"b(?:[1-9]|[1-5]\d|6[0-4])(?:be)?\Z")
ZERO = re.compile(r"-?0[0-9]+\Z")


def left_out(places: Places) -> Hint:
    """What to say of something that isn't read."""
    for it in places.keys:
        hint = of_key(it)
        if hint:
            return of_placeless(places, it) or hint if hint.kind == "no place" else hint
    for it in formulas.types(places):
        hint = of_type(it) or next(filter(None, map(of_expression, formulas.arguments(it))), None)
        if hint:
            return hint
    return next(filter(None, map(of_expression, formulas.of(places))), None) or say("feature")


def of_placeless(places: Places, place: Place) -> Optional[Hint]:
    """What to say of an instance with neither `pos` nor `value`, where a key is misspelt or is one of a type; None where none is."""
    hint = keys.misspelt(places, Start(place.value, "instance", place.key, place.type, place.value), ("pos", "value"))
    other = next((it for it in place.value.pairs if it.key in KEYS["type"]), None)
    if hint or not other:
        return hint
    return say("key of no instance", line=lines.number(places.outline.text, other.at), key=other.key)


def of_key(place: Place) -> Optional[Hint]:
    """What a key has, or is, that isn't read."""
    if place.role == "instances" and place.value.kind == "map" and not place.value.has("pos") and not place.value.has("value"):
        return say("no place")
    if place.role == "type" and place.key == "params" and not place.type.outer:
        return say("root params")
    if place.role == "enum" and ZERO.match(place.key):
        return of_zero(place.key)
    found: Dict[str, Callable[[Place], Optional[Hint]]] = {"meta": of_meta, "parameter": of_parameter, "bytes": of_byte}
    if place.role in found:
        return found[place.role](place)
    if place.role in ("attribute", "instance", "value"):
        return of_field(place)
    return say("in-enum") if place.role == "valid" and place.key == "in-enum" else None


def of_meta(place: Place) -> Optional[Hint]:
    """A key of `meta`."""
    key, value = place.key, place.value
    if key in ("imports", "ks-opaque-types"):
        return say("imports of none" if key == "imports" and value.kind != "map" and not value.items and not value.text else "imports")
    if key == "endian" and value.kind == "map":
        return say("switched endian")
    if key == "bit-endian" and value.text == "le":
        return say("low bits")
    return of_encoding(value) if key == "encoding" else None


def of_encoding(value: Node) -> Optional[Hint]:
    """An encoding."""
    text = value.text.lower()
    if value.kind != "text" or text in ("ascii", "utf-8"):
        return None
    return say("utf8") if text in ("utf8", "utf_8") else say("encoding", more="; or write `ASCII` or `UTF-8` where the text is that")


def of_parameter(place: Place) -> Optional[Hint]:
    """A key of a parameter."""
    return say("io parameter") if place.key == "type" and place.value.text == "io" else None


def of_byte(place: Place) -> Optional[Hint]:
    """An item of `contents`."""
    return of_zero(place.value.text) if not place.value.mark and ZERO.match(place.value.text) else None


def of_field(place: Place) -> Optional[Hint]:
    """A key of an attribute or an instance."""
    key, value = place.key, place.value
    if key in ("process", "pad-right"):
        return say("process") if key == "process" else of_padding(place)
    if key == "encoding":
        return of_encoding(value)
    if key == "contents" and value.kind == "text" and not value.mark and re.fullmatch(r"0x[0-9a-fA-F]+|[0-9]+", value.text):
        digits = value.text[2:] if re.fullmatch(r"0x(?:[0-9a-fA-F]{2}){2,8}", value.text) else ""
        if digits:
            return say("contents", number=", ".join(f"0x{digits[it : it + 2]}" for it in range(0, len(digits), 2)), more=", the highest byte first")
        number = int(value.text, 16) if value.text.startswith("0x") and len(value.text) < 5 else int(value.text) if len(value.text) < 4 else 256
        return say("contents") if ZERO.match(value.text) or number > 255 else say("contents", number=value.text, more="")
    return of_terminator(place) if key == "terminator" else None


def of_padding(place: Place) -> Hint:
    """A byte that fills up, where a terminator could be for it, and where none could."""
    kind, around = place.around.said("type"), place.around
    reasons = (
        ("what is calculated isn't read", place.role == "value"),
        ("`contents` says all", around.has("contents")),
        ("`strz` ends at a zero byte by itself", kind == "strz"),
        ("the value ends at its `terminator`", around.has("terminator")),
        (f"`{kind}` has its own size", keys.INTEGER.match(kind) is not None),
        ("what its type doesn't read of its bytes is passed over", around.has("type") and kind != "str"),
    )
    why = next((it for it, is_so in reasons if is_so), "")
    return say("padding of none", why=why) if why else say("padding")


def of_terminator(place: Place) -> Optional[Hint]:
    """A terminator, by itself and beside its type."""
    if ZERO.match(place.value.text):
        return of_zero(place.value.text)
    kind = place.around.get("type")
    texts = [kind.text] if kind and kind.kind == "text" else [it.value.text for it in kind.get("cases").pairs] if kind and kind.has("cases") else []
    if texts == ["strz"]:
        return say("strz end")
    return say("type end") if any(is_own_type(it, place) for it in texts) else None


def is_own_type(text: str, place: Place) -> bool:
    """Whether a type's text names a type of the description."""
    found = tokens.type_text(text).names
    return bool(found) and not (len(found) == 1 and foreign.BUILT_IN.match(found[0])) and place.type.find(found) is not None


def of_type(formula: Formula) -> Optional[Hint]:
    """A type that isn't read, or not as a case."""
    found = tokens.type_text(formula.text).names
    name, is_case = (found[0] if len(found) == 1 else ""), formula.place.role == "cases"
    if FLOAT.match(name):
        return say("float")
    if LOW_BITS.match(name):
        return say("low bits")
    if is_case and name in ("str", "strz"):
        return say("case of text")
    return say("case of bits") if is_case and BITS.match(name) else None


def of_expression(formula: Formula) -> Optional[Hint]:
    """A stream where it can't be, or a type of the language in a cast."""
    place = formula.place
    in_seq = place.attribute_role != "instance" and place.attribute_role != "value" and place.role != "value"
    found: List[tokens.Token] = tokens.read(formula.text)
    for count, it in enumerate(found):
        if it.text == "_io":
            after = [one.text for one in found[count + 1 : count + 3]]
            is_own = not count or found[count - 1].text != "."
            if formula.key == "argument" and not after:
                return say("io parameter")
            if after[:1] != ["."] and not (formula.key == "io" and len(found) == count + 1):
                return say("stream")
            if after == [".", "pos"] or after == [".", "eof"]:
                if not (is_own and in_seq and formula.key in PLACE_KEYS):
                    return say("present place")
            elif after[:1] == ["."] and after != [".", "size"]:
                return say("stream")
    for it in tokens.names(formula.text):
        if it.kind == "cast" and len(it.names) == 1 and foreign.BUILT_IN.match(it.names[0]):
            return say("cast")
    return None
