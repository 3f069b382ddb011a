"""Hints on names that aren't known (S4), on a missing order of bytes (S5), and on counts of arguments (S7)."""
from __future__ import annotations

import re
from typing import Dict, List, Optional, Sequence

from front.hints import foreign, formulas, keys, lines, tokens
from front.hints.foreign import BUILT_IN
from front.hints.formulas import Formula
from front.hints.kinds import Hint, say
from front.hints.near import near, plain
from front.hints.node import Node
from front.hints.places import Place, Places
from front.hints.scope import IDENTIFIER, Type, members_of
from front.hints.schema import INDEX_KEYS

BARE, INTEGER = re.compile(r"[us][248]\Z"), re.compile(r"[us](?:1|[248](?:le|be)?)\Z")
METHODS = ("length", "size", "first", "last", "reverse", "to_i", "eof", "pos")
ARGUMENTS = {"substring": 2, "to_i": 1, "to_s": 1}
# How many types, members and names a hint looks at, how many names it lists, and in how many types it looks for a name that is far.
TYPES, MEMBERS, LISTED, SEARCHED = 1100, 4000, 8, 60
# What is said of types that a description has, and of those of the language.
OWN = "a type of your own is written under `types`"
LANGUAGE = "; the language's are `u1`, `u2`, `u4`, `u8`, `s1` to `s8`, `b1` to `b64`, `str` and `strz`, and bytes have none"


def unknown(places: Places) -> Optional[Hint]:
    """What to say of a name that isn't known."""
    for it in formulas.types(places):
        hint = of_type(it) or next(filter(None, map(of_expression, formulas.arguments(it))), None)
        if hint:
            return hint
    for it in formulas.of(places):
        hint = of_expression(it)
        if hint:
            return hint
    for it in places.keys:
        if it.key == "enum" and it.role in ("attribute", "instance", "value") and it.value.kind == "text":
            hint = of_enum(it.value.text.split("::"), it.type)
            if hint:
                return of_lost(it, "enums", places.outline.text) if hint.kind == "no enum" and it.around.has("enums") else hint
    return say("unknown name") if places.keys else None


# Members


def of_expression(formula: Formula) -> Optional[Hint]:
    """What to say of the first name in an expression that isn't known."""
    place, key = formula.place, formula.key
    is_repeated = place.attribute is not None and place.attribute.said("repeat") in ("eos", "expr", "until") and place.role != "value"
    for it in tokens.names(formula.text):
        name = it.names[0] if it.names else ""
        hint = None
        if it.kind == "member" and name == "_index":
            hint = None if is_repeated and key in INDEX_KEYS else say("index")
        elif it.kind == "member" and name == "_":
            hint = None if key in ("repeat-until", "expr", "case") else say("element")
        elif it.kind == "member" and name not in tokens.SPECIAL and key != "case":
            hint = None if name in place.type.members else of_foreign_name(name, formula, is_repeated) or of_member(name, formula)
        elif it.kind == "path":
            hint = of_enum_member(it.names, place.type, formula.source)
        elif it.kind == "point" and name in ("_", "_index"):
            hint = say("name after point", name=name)
        elif it.kind == "call" and ARGUMENTS.get(name) != it.count:
            hint = of_call(name, it.count, formula)
        elif it.kind == "cast" and it.names and not (len(it.names) == 1 and BUILT_IN.match(name)) and not place.type.find(it.names):
            hint = of_cast(it.names, place.type) or of_type_names(it.names, place.type, formula.source)
        if hint:
            return hint
    return None


def of_foreign_name(name: str, formula: Formula, is_repeated: bool) -> Optional[Hint]:
    """What to say of a name that other languages have."""
    title = titled(formula.place.type)
    hint = of_element(name, formula, title) if formula.key == "repeat-until" else None
    if hint:
        return hint
    if name in ("i", "j", "k", "idx", "_idx", "_i") and is_repeated and formula.key in INDEX_KEYS:
        return say("index name", type=title, name=name)
    if name in ("value", "val", "self", "this", "x") and formula.key == "expr":
        return say("checked value", type=title, name=name)
    if name in ("this", "self", "value", "val", "x") and formula.key == "repeat-until" and not re.search(r"\b%s\s*\." % name, formula.text):
        return say("element name", type=title, name=name)
    if name in ("it", "elem", "element", "item", "current") and formula.key in ("repeat-until", "expr"):
        return say("element name", type=title, name=name)
    if formula.key == "size" and name in ("eos", "eof", "end", "all", "rest", "remaining"):
        return say("rest")
    after = re.search(r"\b%s\s*\.\s*([a-z_][a-z0-9_]*)" % name, formula.text) if name in ("this", "self") else None
    if after and after[1] in (*formula.place.type.members, *tokens.SPECIAL):
        return say("own member", type=title, name=name, member=after[1])
    if name in foreign.NULLS:
        return say("no null", name=name)
    called = re.search(r"\b%s\s*\.\s*([a-z_][a-z0-9_]*)" % name, formula.text) if name in foreign.MODULES else None
    if plain(name) in ("filesize", "streamsize") or called and called[1] in ("size", "length", "len") and name in ("stream", "file", "reader", "ctx"):
        return foreign.of_function("filesize", f"{name}.{called[1]}" if called else name)
    return foreign.of_function(called[1], f"{name}.{called[1]}") if called else None


def of_element(name: str, formula: Formula, title: str) -> Optional[Hint]:
    """What to say of a name in `repeat-until` that means the element, or a member of it."""
    own = formula.place.attribute
    kind = tokens.type_text(own.said("type")).names if own else []
    if own and (name in (own.said("type"), f"{own.said('id')}_item") or near(name, [own.said("id")])):
        return say("element name", type=title, name=name)
    of = formula.place.type.find(kind) if kind and not (len(kind) == 1 and BUILT_IN.match(kind[0])) else None
    if of and name.startswith("_") and name[1:] in of.members:
        return say("near member", type=title, name=name, near=f"_.{name[1:]}")
    return say("member of element", type=title, name=name) if of and name in of.members else None


def titled(one: Type) -> str:
    """How a type is called in a hint."""
    return f"the type {one.name}" if one.outer else "the root"


def of_member(name: str, formula: Formula) -> Hint:
    """What to say of a name that is no member: one that is near, or where it would be found."""
    one, title = formula.place.type, titled(formula.place.type)
    words = (*tokens.SPECIAL, "true", "false")
    special = next((it for it in words if plain(it) == plain(name) and len(name) > 1), None) or (near(name, tokens.SPECIAL) if name.startswith("_") else None)
    if special:
        return say("special name", type=title, name=name, near=special)
    if name == "_sizeof":
        return say("size of type")
    enum = next((it.enums[name] for it in one.around() if name in it.enums), None)
    after = re.search(r"\b%s\s*[./]\s*([a-z_][a-z0-9_]*)" % name, formula.text) if enum else None
    if after and ("/" not in after[0] or after[1] in members_of(enum)):
        return say("enum by point", name=name, member=after[1] if after[1] in members_of(enum) else (members_of(enum) or ["member"])[0])
    near_one = near(name, [it for it in one.members if not it.startswith("_")])
    hyphens = re.search(r"(?<![.\w-])%s(?:-[a-z0-9_]+)+(?![\w.(-])" % name, formula.text)
    if hyphens and hyphens[0].replace("-", "_") in one.members:
        return say("near member", type=title, name=hyphens[0], near=hyphens[0].replace("-", "_"))
    if near_one and not IDENTIFIER.match(near_one):
        return there(near_one, name, one.members[near_one][0].at, formula.source)
    if near_one:
        return say("near member", type=title, name=name, near=near_one)
    if name == formula.text and not found_elsewhere(name, one, title,
        formula.place.attribute) and (formula.node.mark or formula.key == "valid") and formula.key not in ("size", "pos", "repeat-expr"):
        return of_text(name, formula)
    elsewhere = found_elsewhere(name, one, title, formula.place.attribute)
    holding = [member for member, of in typed(one) if of and of is one.find([name])] if not elsewhere else []
    if len(holding) == 1:
        return say("near member", type=title, name=name, near=holding[0])
    if enum and not elsewhere and members_of(enum):
        return say("enum by point", name=name, member=members_of(enum)[0])
    return elsewhere or say("no member", type=title, name=name, members=listed(one.members,
        "its members are", "it has no members"))


def of_text(text: str, formula: Formula) -> Hint:
    """What to say of a word that may be meant as a text: where a number is checked, what it would be."""
    own = formula.place.attribute
    kind = own.said("type") if own and formula.key == "valid" and not own.has("enum") else ""
    if INTEGER.match(kind) and len(text) == 1:
        return say("letter number", type=kind, number=ord(text))
    if INTEGER.match(kind) and text.isupper() and len(text) == int(kind[1]):
        return say("text of number", type=kind, text=text)
    if INTEGER.match(kind) and text.isupper():
        more = f"; a number in hexadecimal is `0x{text}`" if re.fullmatch(r"[A-F][0-9A-F]{1,15}", text) else ""
        return say("no constant", word=text, name=text.lower().replace("-", "_"), more=more)
    return say("text name", text=text)


def path_to(name: str, formula: Formula) -> str:
    """How a name is written that is a member, or is found elsewhere; the empty text where it is nowhere."""
    one = formula.place.type
    if name in one.members or name in tokens.SPECIAL:
        return name
    hint = found_elsewhere(name, one, titled(one), formula.place.attribute)
    found = re.search(r"write `([a-z_][^`]*)`\Z", hint.text) if hint else None
    return found[1] if found else near(name, [it for it in one.members if not it.startswith("_")]) or ""


def found_elsewhere(name: str, one: Type, title: str, own: Optional[Node]) -> Optional[Hint]:
    """Where a name that is no member of a type would be found."""
    if one.outer and name in one.root.members and len(one.root.members[name]) == 1:
        return say("member of root", type=title, name=name)
    holders = users(one)
    if holders and one.outer and all(name in it.members for it in holders):
        return say("member of parent", type=title, name=name, holder=titled(holders[0]))
    inside = [member for member, of in typed(one) if of and name in of.members and one.members[member][0].value is not own]
    if len(inside) == 1:
        return say("member inside", type=title, name=name, member=inside[0])
    enums = {key for it in one.around() for key, enum in it.enums.items() if len(enum.pairs) < MEMBERS and name in members_of(enum)}
    if len(enums) == 1:
        return say("member of enum", type=title, name=name, enum=enums.pop())
    return further(name, one, title, holders)


def further(name: str, one: Type, title: str, holders: Sequence[Type]) -> Optional[Hint]:
    """Where a name is that is no member of a type, if it is in what another object has; None where it is nowhere."""
    if len(one.root.types) > SEARCHED:
        return None
    fronts = [("_parent", it) for it in holders[:1] if len(holders) == 1] + [("_root", one.root) for _ in [1] if one.outer]
    for front, holder in fronts:
        inside = [(f"{front}.{member}", of) for member, of in typed(holder) if of and of is not one]
        inside += [(f"{path}.{member}", of) for path, outer in inside[:SEARCHED] for member, of in typed(outer) if of and of is not one]
        inside = [(path, of) for path, of in inside if name in of.members]
        if len(inside) == 1:
            return say("member further", type=title, name=name, holder=titled(inside[0][1]), path=f"{inside[0][0]}.{name}")
    others = [it for it in one.root.all(SEARCHED) if it.outer and it is not one and name in it.members]
    return say("member of type", type=title, name=name, other=others[0].path) if len(others) == 1 else None


def typed(one: Type) -> List[tuple]:
    """The members of a type that have one of the description, with that."""
    found = []
    for name, members in list(one.members.items())[:MEMBERS]:
        text = members[0].value.said("type") if members[0].kind != "params" else ""
        inner = tokens.type_text(text).names if text and not BUILT_IN.match(text) else []
        found += [(name, one.find(inner))] if inner and not members[0].value.said("repeat") else []
    return found


def users(one: Type) -> List[Type]:
    """The types with an attribute or instance of a type; none where the description is too large to be looked through."""
    found, count = [], 0
    for it in one.root.all(TYPES):
        count += len(it.members)
        if count > MEMBERS:
            return []
        for members in it.members.values():
            value = members[0].value
            kinds = [value.said("type")] if members[0].kind != "params" else []
            cases = value.get("type").get("cases") if value.has("type") and value.get("type").kind == "map" else None
            kinds += [pair.value.text for pair in cases.pairs] if cases else []
            named = [tokens.type_text(text).names for text in kinds if text and one.name in text]
            if any(names and it.find(names) is one for names in named):
                found.append(it)
                break
    return found


def listed(names: Sequence[str], front: str, none: str) -> str:
    """The first of some names, after a few words."""
    some = [f"`{it}`" for it in list(names)[:LISTED] if it]
    return f"{front} {', '.join(some)}{', ..' if len(names) > LISTED else ''}" if some else none


def of_call(name: str, count: int, formula: Formula) -> Hint:
    """What to say of a method with so many arguments."""
    if not count and name == "to_s":
        return say("text of")
    if not count and (name in METHODS or is_member(name, formula)):
        return say("method without arguments", name=name)
    return foreign.of_method(name) or say("method", name=name, count=count, s="" if count == 1 else "s")


def is_member(name: str, formula: Formula) -> bool:
    """Whether a name that is called may be a member of what is before its point."""
    one = formula.place.type
    found = re.search(r"(?<![.\w])([a-z_]\w*)\s*\.\s*%s\s*\(" % name, formula.text)
    if found and found[1] in one.members:
        of = dict(typed(one)).get(found[1])
        return of is not None and name in of.members
    return any(name in it.members for it in one.root.all(TYPES))


# Enums


def there(written: str, name: str, at: int, source: str) -> Hint:
    """What to say of a name that is there, in another place, but written so that it is none."""
    return say("name there", name=written, line=lines.number(source, at), near=name)


def of_enum_member(names: Sequence[str], one: Type, source: str) -> Optional[Hint]:
    """What to say of a path to an enum's member that isn't there."""
    enum = one.find_enum(names[:-1])
    if not enum:
        return of_enum(names[:-1], one)
    known = members_of(enum)
    if names[-1] in known:
        return None
    near_one, path = near(names[-1], known), "::".join(names[:-1])
    if near_one and not IDENTIFIER.match(near_one):
        return there(near_one, names[-1], next(it.at for it in enum.pairs if near_one in (it.value.text, it.value.said("id"))), source)
    if near_one:
        return say("near enum member", enum=path, name=names[-1], near=near_one)
    return say("no enum member", enum=path, name=names[-1], members=listed(known, "its members are", "it has none"))


def of_enum(names: Sequence[str], one: Type) -> Optional[Hint]:
    """What to say of an enum that isn't there."""
    if one.find_enum(names):
        return None
    seen = {key: None for it in one.around() for key in it.enums}
    near_one = near(names[-1], seen) if len(names) == 1 else None
    if near_one and IDENTIFIER.match(near_one):
        return say("near enum", name=names[-1], near=near_one)
    paths = [f"{it.path}::{names[-1]}" for it in one.root.all(TYPES) if it.outer and names[-1] in it.enums]
    paths = [it for it in paths if one.find_enum(it.split("::"))]
    if len(paths) == 1 and "::".join(names) != paths[0]:
        return say("enum elsewhere", name="::".join(names), path=paths[0])
    if len(names) > 1 and (found := one.find_enum(names[:-1])) and names[-1] in members_of(found):
        return say("member for enum", name="::".join(names), enum="::".join(names[:-1]))
    own = listed(paths, "those in other types are", "write it under `enums`")
    return say("no enum", name="::".join(names), enums=listed(list(seen), "those that can be seen from here are", own))


# Types


def of_type(formula: Formula) -> Optional[Hint]:
    """What to say of a type's text whose type isn't there."""
    names = tokens.type_text(formula.text).names
    if not names or len(names) == 1 and BUILT_IN.match(names[0]) or formula.place.type.find(names):
        return None
    around = formula.place.around
    if formula.place.key == "type" and (around.has("switch-on") or around.has("cases")):
        return say("switch beside", name="::".join(names))
    hint = of_type_names(names, formula.place.type, formula.source, LANGUAGE)
    return of_lost(formula.place, "types", formula.source) if hint.kind == "no type" and around.has("types") else hint


def of_lost(place: Place, key: str, source: str) -> Hint:
    """What to say where the types or enums are in the attribute that names one."""
    at = next(it.at for it in place.around.pairs if it.key == key)
    return keys.elsewhere(key, "instance" if place.role == "value" else place.role, f"line {lines.number(source, at)}: ")


def of_cast(names: Sequence[str], one: Type) -> Optional[Hint]:
    """What to say of a cast to an enum; None where it is something else."""
    enum = one.find_enum(names)
    members = members_of(enum) if enum else []
    return say("enum for cast", name="::".join(names), member=members[0]) if members else None


def of_type_names(names: Sequence[str], one: Type, source: str, more: str = "") -> Hint:
    """What to say of a type that isn't there: one of another language, one that is near, or where it is."""
    name, path = names[-1], "::".join(names)
    if len(names) == 1:
        other = foreign.of_type(name)
        if other:
            return other
    seen = {key: None for it in one.around() for key in it.types}
    near_one = near(name, [*seen, *([one.root.name] if one.root.name else []), "str", "strz"]) if len(names) == 1 else None
    if near_one and not IDENTIFIER.match(near_one):
        return there(near_one, path, next(pair.at for it in one.around() if near_one in it.types for pair in it.node.get("types").pairs if pair.key ==
            near_one), source)
    if near_one:
        return say("near type", name=path, near=near_one)
    listed_types = any(it.node.has("types") and it.node.get("types").kind == "list" for it in one.around())
    if listed_types:
        return say("mapping wanted", key="types", example="each type under its name, `name: {seq: []}`")
    paths = [it.path for it in one.root.all(TYPES) if it.outer and it.name == name and one.find(it.path.split("::")) is it]
    if len(paths) == 1 and paths[0] != path:
        return say("type elsewhere", name=path, path=paths[0])
    if len(names) == 1 and one.find_enum(names):
        return say("enum for type", name=name)
    return say("no type", name=path, types=listed(list(seen), "those that can be seen from here are", OWN) + more)


# The order of bytes, and arguments


def no_order(places: Places) -> Hint:
    """What to say of an integer without an order of bytes (S5)."""
    kinds = {it.text for it in formulas.types(places) if BARE.match(it.text) and not it.place.type.stated("endian")}
    return say("no order", type=kinds.pop()) if len(kinds) == 1 else say("order")


def arguments(places: Places) -> Hint:
    """What to say of a count of arguments that isn't that of the parameters (S7)."""
    for it in formulas.types(places):
        text = tokens.type_text(it.text)
        if len(text.names) == 1 and BUILT_IN.match(text.names[0]):
            if text.arguments:
                return say("arguments of built-in", name=text.names[0], arguments=f"({', '.join(text.arguments)})")
            continue
        found = it.place.type.find(text.names) if text.names else None
        if found and len(found.parameters) != len(text.arguments):
            given = found.node.get("params")
            if given is not None and given.kind != "list":
                return say("list wanted", key="params", item="parameter")
            lost = None if found.parameters else next((pair for pair in found.node.pairs if near(pair.key, ["params"])), None)
            if lost:
                where = f"line {lines.number(places.outline.text, lost.at)}: "
                return say("near key", where=where, key=lost.key, role="a type", near="params")
            name, count = "::".join(text.names), len(found.parameters)
            values = ", ".join([".."] * min(count, LISTED))
            example = f"a value for each, `{name}({values})`" if count else f"`{name}`"
            return say("arguments", name=name, wanted=parameters(found), found=counted(len(text.arguments), "argument"), example=example)
    return say("count of arguments")


def parameters(one: Type) -> str:
    """How many parameters a type has, and which."""
    names = one.parameters
    return counted(len(names), "parameter") + (f", {', '.join(f'`{it}`' for it in names[:LISTED])}{', ..' if len(names) > LISTED else ''}" if names else "")


def counted(count: int, what: str) -> str:
    """A count of things."""
    return f"{count or 'no'} {what}{'' if count == 1 else 's'}"
