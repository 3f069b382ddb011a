"""Hints on expressions that can't be read (S10)."""
from __future__ import annotations

import re
from typing import Iterator, List, Optional, Tuple

from front.hints import foreign, formulas, lines, names, parser, tokens
from front.hints.formulas import Formula
from front.hints.kinds import Hint, say
from front.hints.near import near, plain
from front.hints.places import Place, Places
from front.hints.scope import members_of
from front.hints.tokens import COMPARISONS
from front.hints.values import OTHERS, SEVERAL, of_zero, snake

TOLD = re.compile(r"expression: (X\d+) .* at (\d{1,9})\Z")
# Signs that texts have from elsewhere, and what is written here.
SIGNS = {**dict.fromkeys("“”„«»″", '"'), **dict.fromkeys("‘’′´", "'"), **dict.fromkeys("–—−", "-"), "×": "*", "·": "*", "÷": "/", "≤": "<=", "≥": ">=",
    "≠": "!=", "∧": "and", "∨": "or", "¬": "not"}
CLOSING = {"(": ")", "[": "]"}
# Words that other languages have for operators.
OPERATORS = {"is": "==", "eq": "==", "ne": "!=", "lt": "<", "gt": ">", "le": "<=", "ge": ">=", "div": "/", "mod": "%", "xor": "^", "shl": "<<", "shr": ">>",
             "bitand": "&", "bitor": "|", "equals": "==",
             "AND": "and", "OR": "or", "NOT": "not", "True": "true", "False": "false", "TRUE": "true", "FALSE": "false", "in": "a == 1 or a == 2"}
WORD = re.compile(r"[A-Za-z0-9_]+")
# How a text is looked into.
PART = "a part of a text is compared as `s.substring(0, 2) == \"ab\"`"
ESCAPED = re.compile(r"\\(?![\\\"'abtnvfre])")


def bad(places: Places, told: str) -> Hint:
    """What to say of an expression, by what the program tells of it: a code and a place."""
    found = TOLD.match(told)
    code, place = (found[1], int(found[2])) if found else ("", 0)
    by_code = {"X1": unexpected, "X2": ended, "X3": left_out}
    if code not in by_code:
        return say({"X4": "number", "X5": "long", "X6": "memory"}.get(code, "left out form"))
    hints = [by_code[code](it, at) for it in candidates(places) if (at := refused_at(it, code, place)) >= 0]
    general = {"X1": say("unclear character", place=place), "X2": say("early end"), "X3": say("left out form")}
    return hints[0] if hints else general[code]


def candidates(places: Places) -> Iterator[Formula]:
    """The expressions and types of the line."""
    yield from formulas.of(places)
    yield from formulas.types(places)


def refused_at(formula: Formula, code: str, place: int) -> int:
    """Where an expression is refused, in characters, if by this code and at this place, which is in bytes; -1 else."""
    found = parser.refused(formula.text, formula.key == "type")
    is_it = found is not None and found.code == code and len(formula.text[: found.at].encode(errors="replace")) == place
    return found.at if found and is_it else -1


# Pairs of signs that people write for operators.
PAIRS = {"->": ".", "?:": "a ? b : c", "??": "a ? b : c", "<>": "!="}


def unexpected(formula: Formula, at: int) -> Hint:
    """What to say of a character that can't come where it is (X1)."""
    text, key = formula.text, formula.key
    by_key = {"case": of_case, "valid": of_check, "type": of_type}
    if hint := of_lone(formula, at):
        return hint
    if key in by_key and (hint := by_key[key](formula, text[at:])):
        return hint
    if re.fullmatch(r"[A-Za-z][\w-]{0,60}", text) and (formula.node.mark or key == "valid") and key not in ("case", "type"):
        return names.of_text(text, formula)
    before = text[:at].rstrip()
    if is_prose(formula):
        return say("quoted words", text=text)
    hint = of_list(text, at, before) or (say("if word") if re.search(r"(?:^|\s)(?:if|then)\s", text) else None) or of_operator(formula, at, before)
    found = WORD.match(text, at)
    return hint or (of_word(formula, at, found[0]) if found else of_sign(formula, at, before))


def is_prose(formula: Formula) -> bool:
    """Whether an expression in quotes of YAML looks like a text: words that no member has, or a sign alone, where a text may be."""
    text, words = formula.text, re.findall(r"\w+", formula.text)
    if formula.node.mark not in ("'", '"') or formula.key not in ("value", "valid", "switch-on"):
        return False
    if re.search(r"[\"'()\[\]=<>&|^~+*/%?\n]|::|\d[.,]\d", text):
        return False
    known = (*formula.place.type.members, *tokens.SPECIAL, *tokens.WORDS, "true", "false", *OPERATORS)
    return not any(it in known or it[0].isdigit() for it in words) and (len(words) > 1 or not words)


def of_lone(formula: Formula, at: int) -> Optional[Hint]:
    """What to say of a text with a quote alone, or a comment that is none; None where it is something else."""
    text, mark = formula.text, formula.node.mark
    rest = [it for it in tokens.read(text[at:]) if it.kind == "other" and it.text in "'\""]
    if mark in ("|", ">") and re.match(r"#\s", text[at:]):
        return say("comment inside", where="a block text has none")
    if rest and len(rest) % 2:
        return say("lone quote", sign=rest[0].text)
    if text[at] != "#" or not text[:at].strip() or re.match(r"#[0-9A-Fa-f]+\b", text[at:]):
        return None
    closing = "brace" if formula.place.around.is_flow else "quote"
    return say("comment inside", where=f"it comes behind the closing {closing}") if mark in ("'", '"') else say("comment sign")


def of_check(formula: Formula, rest: str) -> Optional[Hint]:
    """What to say of a check that is written otherwise than as an expression; None where it is something else."""
    key = re.match(r"(min|max|eq|expr|any-of)\s*=(?!=)", formula.text)
    if key:
        return say("equals key", key=key[1])
    if re.fullmatch(r"\d{1,3}(?:,\d{3})+", formula.text):
        return say("thousands", near=formula.text.replace(",", ""))
    if re.match(r"!=", formula.text):
        return say("unequal", check=formula.text)
    if re.match(r"[<>]|[=!]=", formula.text) or ".." in formula.text:
        return say("bound")
    return say("checked list", more="") if rest[:1] == "," and rest[1:].strip() and re.match(r"[\d\w\"']", formula.text) else None


def of_list(text: str, at: int, before: str) -> Optional[Hint]:
    """What to say of a comma, a bracket or a colon where no list is; None where it is something else."""
    sign = text[at : at + 1]
    if sign == "," and not text[at + 1 :].strip():
        return None
    if re.fullmatch(r"\d{1,3}(?: \d{3})+", text):
        return say("thousands", near=text.replace(" ", ""))
    if sign == "," and re.search(r"\d\Z", before) and re.match(r", *\d{3}(?!\d)", text[at:]):
        return say("thousands", near=re.sub(r"(?<=\d), *(?=\d{3})", "", text))
    if sign == "," and "?" in before and ":" not in before:
        return say("if word")
    if sign == "," and not any(re.search(r"[\w\])]\s*\Z", before[:place]) for place, it in opened(before) if it == "("):
        return say("one value", sign=",")
    if "." in text[at : at + 1] and pair_at(text, at) == ".." and before.count("[") > before.count("]"):
        return say("part of list")
    if not before:
        return None
    if pair_at(text, at) == "..":
        return say("range" if re.search(r"\d\.\Z", text[:at]) else "two points")
    if sign == "." and re.match(r"\.\.", text[at:]):
        return say("range")
    if pair_at(text, at) == "[]":
        return say("empty index")
    return say("part of list") if sign == ":" and before.count("[") > before.count("]") else None


def is_operand(formula: Formula, text: str) -> bool:
    """Whether a text begins as an expression does: with a parenthesis, a number or a known name, behind which no word is."""
    first, after = (*tokens.read(text), *[tokens.Token("end", "", 0)] * 2)[:2]
    is_known = first.text == "(" or first.kind == "number" or first.text in (*formula.place.type.members, *tokens.SPECIAL)
    return is_known and (after.kind in ("sign", "end") or after.text in ("and", "or") or first.text == "(")


def of_comment(formula: Formula, sign: str) -> Hint:
    """What to say of a comment as other languages have it."""
    place = "and a block text has none" if formula.node.mark in ("|", ">") else "behind the closing quote" if formula.node.mark else ""
    place = "behind the closing brace" if formula.place.around.is_flow else place
    return say("comment mark", sign=sign, where=f", {place}" if place else "")


def of_foreign_sign(formula: Formula, at: int) -> Optional[Hint]:
    """What to say of a sign that begins a comment, ends a line, or changes a variable in other languages; None where it is something else."""
    rest, pair = formula.text[at:], pair_at(formula.text, at)
    if wrapped := re.match(r"[$#%]\{+|\$\(", rest):
        return say("wrapped", sign=wrapped[0])
    if "=~" in (pair, rest[:2]):
        return say("other function", name="=~", example=PART)
    if pair == "/*" or pair == "//" and not is_operand(formula, rest[1:].strip()):
        return of_comment(formula, pair)
    if rest[:1] in (";", ",") and not rest[1:].strip():
        return say("end sign", sign=rest[0])
    if rest[:2] == ":=":
        name = re.search(r"(?<![\w.])([a-z_]\w*)\s*\Z", formula.text[:at])
        return say("assigned", name=name[1]) if name and name[1] not in (*formula.place.type.members, "_") else say("equals")
    if rest[:1] == "=" and formula.text[max(0, at - 2) : at] in ("<<", ">>"):
        return say("word", word=f"{formula.text[at - 2 : at]}=", near=formula.text[at - 2 : at])
    is_change = rest[:1] == "=" and rest[:2] != "==" and pair[0] in "+-*/%&|^"
    return say("word", word=pair, near=pair[0]) if is_change else None


def of_operator(formula: Formula, at: int, before: str) -> Optional[Hint]:
    """What to say of a sign that other languages have for an operator; None where it is something else."""
    text = formula.text
    rest, pair = text[at:], pair_at(text, at)
    hint = of_foreign_sign(formula, at)
    if hint:
        return hint
    if rest[:1] in SIGNS:
        return say("foreign sign", sign=rest[0], near=SIGNS[rest[0]])
    path = re.match(r"(?:\.{0,2}/+|\.\.)(?:\.\./)*([a-z]\w*)", rest) if not before else None
    if path and any(path[1] in it.members for it in formula.place.type.root.all(1 if rest[0] == "/" else names.SEARCHED)):
        return say("path sign", near=f"_root.{path[1]}" if rest[0] == "/" else f"_parent.{path[1]}")
    if rest[:1] in ("'", '"') and before.endswith("."):
        return say("joined texts")
    number = re.match(r"[$#]([0-9][0-9a-fA-F]{0,15}|[0-9a-fA-F]{1,16})\b", rest)
    if number and (not number[1].islower() or number[1] not in formula.place.type.members):
        return say("hex number", near=f"0x{number[1]}")
    named = re.search(r"([a-z]\w{0,60})\((?:[^()]*, *)?[a-z_]\w* *\Z", text[:at]) if rest[:1] == "=" and rest[:2] != "==" else None
    if named and named[1] not in tokens.WORDS:
        return say("named argument", near=f"{named[1]}(..)")
    if rest[:1] in ("$", "@"):
        own = re.match(r".(root|parent)\b", rest)
        return say("path sign", near=f"_{own[1]}") if own else say("name sign", sign=rest[0])
    enum = re.search(r"([a-z]\w*)\s*-\Z", text[:at]) if pair == "->" else None
    if enum and formula.place.type.find_enum([enum[1]]) and (member := re.match(r">\s*([a-z]\w*)", rest)):
        return say("enum colon", near=f"{enum[1]}::{member[1]}")
    if pair == "<>" and re.search(r"\.\s*as\s*<\Z", text[:at]):
        return say("empty cast")
    if pair in PAIRS and (pair != "->" or re.match(r">\s*[a-z_]", rest)):
        return say("word", word=pair, near=PAIRS[pair])
    if rest[:1] == "!" and rest[:2] != "!=" and re.search(r"[-&|^+*/%]\Z", before) and not re.search(r"&&|\|\|", before[-2:]):
        return say("word", word="!", near="~")
    if pair in ("&&", "||") or rest[:1] in ("&", "|") and before[-1:] == rest[:1] or rest[:1] == "!" and rest[:2] != "!=":
        return say("operator")
    if text[max(0, at - 2) : at + 1] in (">>>", "<<<"):
        return say("word", word=text[at - 2 : at + 1], near=text[at - 2 : at])
    if rest[:2] in ("=<", "=>"):
        return say("word", word=rest[:2], near=rest[1] + "=")
    if rest[:1] == "=" and rest[:2] != "==" and text[max(0, at - 1) : at] != "!" and before:
        return say("equals")
    return say("power" if pair == "**" else "division") if pair in ("**", "//") else None


def pair_at(text: str, at: int) -> str:
    """A sign and the one before it."""
    return text[max(0, at - 1) : at + 1]


def is_measured(formula: Formula) -> bool:
    """Whether an expression is a number and a word that no member has."""
    found = re.fullmatch(r"[0-9]+ +([A-Za-z]+)", formula.text)
    return bool(found) and found[1] not in formula.place.type.members


def of_type(formula: Formula, rest: str) -> Optional[Hint]:
    """What to say of the text of a type that is written as in other languages; None where it is something else."""
    text = formula.text
    listed = re.fullmatch(r"([A-Za-z]\w*)\[\s*(\w*)\s*\]", text)
    ordered = re.fullmatch(r"([us][248])[\s,_.-]+(le|be)", text)
    if rest.startswith(("//", "/*", "--")) or rest[:1] == ";" and rest[1:].strip():
        return of_comment(formula, ";" if rest[0] == ";" else rest[:2])
    if listed:
        given = formula.place.type.find([listed[1]])
        if given and given.parameters:
            return say("type arguments", example=f"{listed[1]}({listed[2] or '..'})")
        if formula.place.role == "cases":
            return say("listed case")
        return of_listed(listed[1].lower() if foreign.is_type(listed[1]) else snake(listed[1]) or "t", listed[2] or "n")
    if ordered:
        return say("type order", near=ordered[1] + ordered[2])
    if hint := foreign.of_type(" ".join(text.split())) or of_capital_type(formula):
        return hint
    bits = re.fullmatch(r"([a-z]\w*) *[:.] *([1-9]|[1-5][0-9]|6[0-4])", text)
    if bits and (names.BUILT_IN.match(bits[1]) or foreign.integer(bits[1])):
        return say("some bits", near=f"b{bits[2]}")
    if re.fullmatch(r"[a-z]\w*(?:-\w+)+", text) and snake(text):
        return say("type hyphen", near=snake(text))
    given = re.fullmatch(r"([a-z]\w*(?:::[a-z]\w*)*)[ :]+([\w.]+(?: *, *[\w.]+)*)", text)
    if given and rest[:1] not in ("", ".", ":") and formula.place.type.find(given[1].split("::")):
        return say("type arguments", example=f"{given[1]}({given[2]})")
    is_path = rest[:1] == "." and re.fullmatch(r"\w+(?:\.\w+)+", text)
    if rest[:1] in ("<", "{", '"', "'", "*", "&", "=") and text[: len(text) - len(rest)].strip() or re.match(r"struct\.", text):
        return say("one type")
    return say("type point", near=text.replace("types.", "").replace(".", "::")) if is_path else None


def of_listed(name: str, count: str) -> Hint:
    """What to say of a type with a count in brackets."""
    example = foreign.OTHER_TYPES.get(name, "")
    if "`str`" in example:
        return say("text size", count=count)
    if example:
        return say("other type", name=name, example=example)
    count = count if count.islower() or count.isdigit() else snake(count) or "n"
    kind = name if foreign.BUILT_IN.match(name) else foreign.integer(name) or name
    return say("type list", type=kind, count=count, more=f"; bytes are `size: {count}` alone" if kind == "u1" else "")


def of_capital_type(formula: Formula) -> Optional[Hint]:
    """What to say of a type's name with large letters; None where it is none."""
    found = re.fullmatch(r"([A-Za-z]\w*)((?:\(.*\))?)", formula.text)
    if not found or found[1].islower() or not any(it.isupper() for it in found[1]):
        return None
    name, one = snake(found[1]), formula.place.type
    seen = {key: None for it in one.around() for key in it.types}
    near_one = name if one.find([name]) or names.BUILT_IN.match(name) else near(name, seen)
    if near_one:
        return say("capital", name=(near_one if near_one.islower() else name) + found[2])
    return say("capital type", name=name or "a", types=names.listed(list(seen), "those that can be seen from here are", names.OWN) + names.LANGUAGE)


def of_case(formula: Formula, _rest: str) -> Optional[Hint]:
    """What to say of the key of a case that is a word or a text by what it looks like; None where it is something else."""
    text = formula.text
    if text.lower() in OTHERS:
        return say("other case")
    alone = re.fullmatch(r"(?:case|when) +(\S.*)", text)
    if alone:
        return say("case alone", near=alone[1])
    if SEVERAL.search(text):
        return say("case each")
    if formula.place.is_quoted and "::" not in text:
        return say("case text")
    return say("text name", text=text) if re.fullmatch(r"[A-Za-z][\w-]{0,60}", text) and text not in OPERATORS else None


def unclear(formula: Formula, at: int, sign: str) -> Hint:
    """What to say of a sign or word that can't come where it is, and is nothing that is known: what may come there."""
    before = formula.text[:at].rstrip()
    if formula.key == "type" and "(" not in before:
        return say("one type")
    if sign == ")" and before.endswith(","):
        return say("last comma")
    wanted = "after a point comes a name" if before.endswith(".") else "after a value comes an operator, as in `a + 1` and `a == 1`, or nothing" if before_is_value(before) else (
        "a value is wanted, such as a number, a name, a text, or parentheses around one")
    return say("character", sign=sign, place=at, wanted=wanted)


def of_word(formula: Formula, at: int, word: str) -> Hint:
    """What to say of a word or number that can't come where it is."""
    text, begin = formula.text, at
    while begin and WORD.match(text[begin - 1]):
        begin -= 1
    whole = WORD.match(text, begin)[0]
    hint = of_number(formula, at, whole, begin != at)
    if hint:
        return hint
    if hint := of_operator_word(text, begin, whole) or of_cast(formula, at, word):
        return hint
    target = re.match(r"as\s+(\w+)", text[begin:])
    if target and begin == at and foreign.is_type(target[1]) and not formula.place.type.find([target[1]]):
        return of_cast_to(target[1])
    if word == "as" and begin == at:
        return say("word", word="as", near="x.as<t>")
    if text[:at].rstrip().endswith(".") and word.isdigit() and begin == at:
        return say("numbered point", number=word)
    if word == "not" and re.match(r"not\s+in\b", text[begin:]):
        return say("word", word="not in", near="a != 1 and a != 2")
    if word == "not" and begin and text[begin + 3 :].strip():
        return say("two values", word="not") if before_is_value(text[:begin]) else say("not inside")
    if re.fullmatch(r"[LUBR]", whole) and text[begin + 1 : begin + 2] in ("'", '"'):
        return of_bytes(whole, re.match(r"'[^']*'?|\"[^\"]*\"?", text[begin + 1 :])[0])
    if re.search(r"[A-Z]", word):
        return of_capital(formula, begin, whole)
    is_value = before_is_value(text[:at])
    if formula.key == "type" and is_value and begin == at and "(" not in text[:at]:
        return say("one type")
    if begin == at and is_value and formula.place.role == "choices":
        return say("flow comma")
    return say("two values", word=word) if begin == at and is_value and word not in ("and", "or") else unclear(formula, at, word)


def of_operator_word(text: str, begin: int, whole: str) -> Optional[Hint]:
    """What to say of a word that other languages have for an operator; None where it is none."""
    if whole == "is" and (none := re.match(r"is\s+(?:not\s+)?([A-Za-z]+)", text[begin:])) and none[1].lower() in foreign.NULLS:
        return say("no null", name=none[1])
    if whole == "in" and text[:begin].rstrip()[-1:] in ("'", '"'):
        return say("other function", name="in", example=PART)
    if whole.isupper() and whole.lower() in OPERATORS and before_is_value(text[:begin]):
        return say("word", word=whole, near=OPERATORS[whole.lower()])
    if whole == "is" and re.match(r"is\s+[a-z]+\s+[a-z]+", text[begin:]):
        return say("two values", word=whole)
    if whole in OPERATORS and (begin or whole[0].isupper()):
        near = OPERATORS[whole]
        return say("capital", name=near) if whole[0].isupper() else say("word", word=whole, near=near)
    return None


def of_number(formula: Formula, at: int, whole: str, is_inside: bool) -> Optional[Hint]:
    """What to say of a word that is a number in another form; None where it is none."""
    number = re.fullmatch(r"0([XBOo])([0-9a-fA-F]+)", whole)
    if number:
        base = {"X": 16, "B": 2}.get(number[1], 8)
        digits = number[2] if all(it in "0123456789abcdef"[:base] for it in number[2].lower()) else ""
        return say("number prefix", near=f"0{number[1].lower()}{digits}" if base != 8 else str(int(digits, 8)) if digits else "0x..")
    if re.fullmatch(r"[0-9]+(?:_+[0-9]+)*_*", whole) and is_inside and "_" in whole:
        return say("underscore", near=re.sub(r"_+", "_", whole).strip("_"))
    if re.fullmatch(r"[01]{3,}[bB]", whole) and is_inside:
        return say("number prefix", near=f"0b{whole[:-1]}")
    if re.fullmatch(r"[0-9]+[bB]", whole) and is_inside:
        return say("unit")
    suffixed = re.fullmatch(r"(0x[0-9a-fA-F]+|0b[01]+|[0-9]+)(?:[uU]?[lL]{0,2}|[lL]{1,2}[uU]?|[uU](?:8|16|32|64)|n)", whole)
    if suffixed and suffixed[1] != whole and is_inside:
        return say("number suffix", near=suffixed[1])
    if whole.startswith(("0x", "0b")) and is_inside:
        return say("digits", word=whole, front=whole[:2], digits="`0` to `9` and `a` to `f`" if whole[1] == "x" else "`0` and `1`")
    hexadecimal = re.fullmatch(r"([0-9][0-9a-fA-F]{0,15})[hH]?|([A-F][0-9A-F]{0,15})[hH]", whole)
    if hexadecimal and (is_inside or hexadecimal[2]):
        return say("hex number", near=f"0x{hexadecimal[1] or hexadecimal[2]}")
    return say("unit") if re.fullmatch(r"[0-9]+[A-Za-z]+", whole) and is_inside or is_measured(formula) else None


def of_cast(formula: Formula, at: int, word: str) -> Optional[Hint]:
    """What to say of a type in parentheses before a value; None where there is none."""
    front, one = formula.text[:at], formula.place.type
    if before := re.search(r"\(\s*((?:un)?signed)\s+\Z", front):
        cast = f"{before[1]} {word}"
        return of_cast_to(cast) if foreign.integer(cast) else None
    found = re.search(r"\(\s*([a-z]\w*(?:::[a-z]\w*)*)\s*\)\s*\Z", front)
    if not found or found[1] in one.members:
        return None
    value = re.match(r"[a-z_]\w*(?:\.[a-z_]\w*|\[[^\[\]]*\])*", formula.text[at:])
    if value and not names.BUILT_IN.match(found[1]) and one.find(found[1].split("::")):
        return say("type cast", value=value[0], type=found[1])
    if not foreign.is_type(found[1]):
        return None
    return say("sign cast", type=found[1]) if word in tokens.WORDS else of_cast_to(found[1])


def of_cast_to(name: str) -> Hint:
    """What to say of a cast to a type that a number has elsewhere."""
    bits = foreign.low_bits(name)
    return say("low cast", type=name, bits=bits, mask=f"0x{(1 << bits) - 1:x}") if bits else say("sign cast", type=name)


def of_capital(formula: Formula, begin: int, word: str) -> Hint:
    """What to say of a word with large letters."""
    text, name = formula.text, snake(word)
    after, before = text[begin + len(word) :], text[:begin].rstrip()
    if re.match(r"\s*\(", after) and before.endswith(".") and name not in ("to_i", "to_s", "substring"):
        count = tokens.arguments(tokens.read(after), 0)
        return foreign.of_method(word) or say("method", name=word, count=count, s="" if count == 1 else "s")
    if re.match(r"\s*\(", after) and not before.endswith((".", "::")):
        return of_called(word)
    if word.lower() in foreign.NULLS:
        return say("no null", name=word)
    hint = say("capital text", word=word) if before.endswith("to_s(") else of_compared(formula, begin, word, name)
    if hint:
        return hint
    is_alone = not before.endswith((".", "::")) and not after.lstrip().startswith("::") and name not in tokens.WORDS
    path = names.path_to(name, formula) if is_alone and name else name
    more = f"; a number in hexadecimal is `0x{word}`" if re.fullmatch(r"[A-F][0-9A-F]{1,15}", word) else ""
    return say("capital", name=path) if path else say("no constant", word=word, name=name or "a", more=more)


def of_called(name: str) -> Hint:
    """What to say of a function."""
    chosen = {"min": "a < b ? a : b", "max": "a > b ? a : b", "abs": "a < 0 ? -a : a"}.get(name.lower())
    if plain(name) in ("defined", "isset", "exists", "isnull"):
        return say("asked for", name=name)
    return say("two choose", name=name, example=chosen) if chosen else foreign.of_function(name) or say("call", name=name)


def of_compared(formula: Formula, begin: int, word: str, name: str) -> Optional[Hint]:
    """What to say of a word with capitals that is compared and means a text or an enum's member; None where it is something else."""
    text, one = formula.text, formula.place.type
    after = text[begin + len(word) :]
    is_compared = re.search(r"[^=][=!]=\s*\Z", text[:begin]) or re.match(r"\s*[=!]=[^=]", after)
    if not is_compared or name in one.members or re.match(r"\s*(?:\.|::|\()", after) or word in OPERATORS:
        return None
    enums = {key for it in one.around() for key, enum in it.enums.items() if len(enum.pairs) < names.MEMBERS and name in members_of(enum)}
    return say("capital member", word=word, near=f"{enums.pop()}::{name}") if len(enums) == 1 else say("capital text", word=word)


def before_is_value(front: str) -> bool:
    """Whether an expression's front ends with a value."""
    found = tokens.read(front)
    return bool(found) and (found[-1].kind in ("number", "text") or found[-1].text in (")", "]") or found[-1].kind == "name" and found[-1].text not in ("and",
        "or", "not"))


def opened(text: str) -> List[Tuple[int, str]]:
    """The parentheses and brackets that are open at the end of an expression's front, with their places."""
    found: List[Tuple[int, str]] = []
    for it in tokens.read(text):
        if it.text in ("(", "["):
            found.append((it.at, it.text))
        elif it.text in (")", "]") and found:
            found.pop()
    return found


def of_crossed(text: str, before: str, sign: str) -> Optional[Hint]:
    """What to say of a closing sign where another one is wanted; None where it is the right one, or none is open."""
    inside = [it for _, it in opened(before)]
    if not inside or CLOSING[inside[-1]] == sign:
        return None
    is_closed = text.count(CLOSING[inside[-1]]) >= text.count(inside[-1])
    if is_closed and any(CLOSING[it] == sign and text.count(sign) > text.count(it) for it in CLOSING):
        return say("closing", sign=sign, more="")
    if len(inside) > 1 and CLOSING[inside[-2]] == sign and text.count(sign) <= text.count(inside[-2]):
        return say("crossed", sign=inside[-1], other=sign, closing=CLOSING[inside[-1]])
    return say("other closing", sign=inside[-1], closing=CLOSING[inside[-1]], other=sign)


def of_sign(formula: Formula, at: int, before: str) -> Hint:
    """What to say of a sign that can't come where it is."""
    text = formula.text
    sign = next((it.text for it in tokens.read(text) if it.at == at), text[at : at + 1])
    cast = re.search(r"([a-z_]\w*)\s*::?\s*as\s*<", text[: at + 1]) if sign in COMPARISONS or sign == ">" else None
    if cast:
        return say("colon point", near=f"{cast[1]}.as<..>")
    if sign in COMPARISONS and before_is_value(before) and any(it.text in COMPARISONS for it in tokens.read(before)):
        return say("one comparison")
    if sign in (")", "]", "}") and (crossed := of_crossed(text, before, sign)):
        return crossed
    if sign in (")", "]"):
        opening = {")": "(", "]": "["}[sign]
        if before.count(opening) <= before.count(sign):
            return say("closing", sign=sign, more="" if formula.key == "type" else f", or write `{opening}` before what it closes")
    argument = re.search(r"([a-z]\w{0,60})\((?:[^()]*, *)?[a-z_]\w* *\Z", text[:at]) if sign == ":" and "?" not in before else None
    if argument:
        return say("named argument", near=f"{argument[1]}(..)")
    if sign == "::" and before_is_value(before) and (called := re.match(r"::\s*([a-z_]\w*)", text[at:])):
        return say("colon point", near=f"..{called[1]}" if not re.search(r"\w\Z", before) else f"{re.search(r'[a-z_0-9]+$', before)[0]}.{called[1]}")
    if sign == ":":
        named = re.search(r"([a-z_][a-z0-9_]*)\Z", text[:at])
        after = re.match(r":([a-z_][a-z0-9_]*)", text[at:])
        is_path = text[: named.start()].rstrip().endswith(".") if named else False
        is_enum = named and formula.place.type.find_enum([named[1]])
        if named and after and (is_path or not is_enum and (named[1] in formula.place.type.members or named[1] in tokens.SPECIAL)):
            return say("colon point", near=f"{named[1]}.{after[1]}")
        return say("enum colon", near=f"{named[1]}::{after[1]}") if named and after and "?" not in before else say("lone colon")
    if sign[:1] in ("'", '"') and before_is_value(before):
        return of_prefixed(formula, at, sign) or say("two values", word=sign)
    named = re.search(r"(?<![.\w])([a-z_][a-z0-9_]{0,60})\Z", before)
    if sign == "(" and named and formula.key != "type":
        return of_called(named[1])
    return unclear(formula, at, sign)


def of_prefixed(formula: Formula, at: int, sign: str) -> Optional[Hint]:
    """What to say of a text with a letter before its quote; None where there is none."""
    if sign == '""' or formula.text[:at].endswith(('""', "''")):
        return say("three quotes")
    found = re.search(r"(?<![\w.])([bruf])\Z", formula.text[:at])
    if not found:
        return None
    return say("filled text") if found[1] == "f" else of_bytes(found[1], sign)


def of_bytes(letter: str, text: str) -> Hint:
    """What to say of a text with a letter before its quote, by which it would be bytes, wide or raw elsewhere."""
    more = ""
    if letter in "bB":
        more = f"; bytes are compared as `x.to_s(\"ASCII\") == {text}`"
        more = "; bytes that are no letters are compared one by one, as `x[0] == 0x89`" if "\\" in text or not text.isascii() else more
    return say("bytes text", sign=letter, more=more)


def ended(formula: Formula, at: int) -> Hint:
    """What to say of an expression that ends too early (X2)."""
    text, owner = formula.text, formula.place
    if not text.strip():
        return of_no_type(owner) if formula.key == "type" else say("no expression", key=formula.written, more=of_hash(formula))
    quote = unclosed(text)
    if is_cut(formula) and is_in_comment(formula, quote):
        return say("comment")
    if quote and text.endswith(quote):
        return say("lone quote", sign=quote)
    if text.rstrip().endswith(("++", "--")):
        return say("counted up", sign=text.rstrip()[-2:], near=f"{text.rstrip()[-1]} 1")
    if quote:
        return say("open quote", sign=quote)
    opened: List[str] = []
    for it in tokens.read(text):
        if it.text in ("(", "["):
            opened.append(it.text)
        elif it.text in (")", "]") and opened:
            opened.pop()
    if text.rstrip().endswith("?"):
        return say("end sign", sign="?")
    if "?" in text and ":" not in text:
        return say("half choice")
    last = (tokens.read(text) or [tokens.Token("", "", 0)])[-1]
    is_cast = re.search(r"\.\s*as\s*<[\w:\s]+>\s*\Z", text) is not None
    if last.kind == "sign" and last.text not in (")", "]") and not is_cast or last.text in ("and", "or", "not"):
        return say("ended", sign=last.text)
    return say("open bracket", sign=opened[-1], closing=")" if opened[-1] == "(" else "]") if opened and owner else say("early end")


def of_hash(formula: Formula) -> str:
    """What is said where an expression is missing and all behind its key is a comment that may have been meant for it."""
    row = formula.source[formula.place.at : lines.stop(formula.source, formula.place.at)]
    return "; what comes after ` #` is a comment" if re.search(r":\s+#\w", row) else ""


def of_no_type(place: Place) -> Hint:
    """What to say of a type that is missing."""
    if place.role == "cases":
        return say("case wanted")
    is_beside = place.around.has("switch-on") or place.around.has("cases")
    return say("nothing below", key="type", example="`switch-on` and `cases`") if is_beside else say("type wanted")


def unclosed(text: str) -> str:
    """The quote that opens a text which isn't closed; the empty text where there is none."""
    found = next((it for it in tokens.read(text) if it.kind == "other" and it.text in "'\""), None)
    return found.text if found else ""


def is_in_comment(formula: Formula, quote: str) -> bool:
    """Whether the comment behind an expression has what the expression lacks: a quote, what closes a bracket, or a value."""
    cut, inside = cut_of(formula), [it for _, it in opened(formula.text)]
    return quote in cut if quote else not inside or CLOSING[inside[-1]] in cut


def is_cut(formula: Formula) -> bool:
    """Whether a comment follows a plain expression on its line."""
    return not formula.node.mark and formula.key != "case" and cut_of(formula) != ""


def cut_of(formula: Formula) -> str:
    """The comment behind a value; the empty text where there is none."""
    source, at = formula.source, formula.node.at
    stop = source.find("\n", at)
    found = re.search(r"[ \t]#.*", source[at : len(source) if stop < 0 else stop])
    return found[0] if found else ""


def left_out(formula: Formula, at: int) -> Hint:
    """What to say of a form that isn't read (X3)."""
    rest = formula.text[at:]
    if re.fullmatch(r"\d{1,3}(?: \d{3})+", formula.text):
        return say("thousands", near=formula.text.replace(" ", ""))
    binary = re.match(r"(0[01]+)[bB]\b", rest)
    if binary:
        return say("number prefix", near=f"0b{binary[1]}")
    if re.match(r"0[0-9_]*[0-9](?![0-9_]*(?:\.[0-9]|[eE]))", rest) and not re.match(r"0(?:\.|[eE])", rest):
        return of_zero(re.match(r"[0-9_]*", rest)[0])
    if re.match(r"[0-9][0-9_]*(?:\.[0-9]|[eE][+-]?[0-9])", rest):
        wanted = f"a text needs quotes of both kinds: `'\"{formula.text}\"'`" if formula.node.mark and re.fullmatch(r"[0-9.]+", formula.text) else ""
        alone = re.fullmatch(r"([0-9]{1,18})\.0+", formula.text)
        wanted = "; ".join([f"here `{alone[1]}`" for _ in [1] if alone] + [wanted] * bool(wanted))
        return say("fraction", wanted=wanted) if wanted else say("fraction")
    if rest.startswith("["):
        is_compared = re.search(r"[=!]=\s*\Z", formula.text[:at]) or re.match(r"\[[^\[\]]*\]\s*[=!]=", rest)
        return say("array" if is_compared or formula.key == "valid" else "list literal")
    if rest.startswith(("sizeof", "bitsizeof")):
        return say("size of type")
    if rest.startswith('f"'):
        return say("filled text")
    return say("escape") if rest.startswith('"') and ESCAPED.search(rest) else say("left out form")
