"""What other languages have: types, formats of bytes, functions and methods, each with what is written here for it."""
from __future__ import annotations

import re
from typing import Dict, Optional

from front.hints.kinds import Hint, say
from front.hints.near import plain

BUILT_IN = re.compile(r"(?:[us](?:1|[248](?:le|be)?)|b(?:[1-9]|[1-5]\d|6[0-4])(?:le|be)?|f[48](?:le|be)?|strz?)\Z")
# Methods, without large letters and signs between words.
OTHER_METHODS: Dict[str, str] = {
    **dict.fromkeys(("equals", "eq", "isequal", "compareto"), "`a == b`"),
    **dict.fromkeys(("toint", "parseint", "tointeger", "int"), "`s.to_i`, or `s.to_i(16)`"),
    **dict.fromkeys(("tostring", "tostr", "str", "decode"), "`n.to_s`, and of bytes `b.to_s(\"ASCII\")`"),
    **dict.fromkeys(("substr", "slice", "mid", "substringof"), "`s.substring(a, b)`"),
    **dict.fromkeys(("startswith", "hasprefix"), "`s.substring(0, 2) == \"ab\"`"),
    **dict.fromkeys(("len", "count", "getlength", "getsize"), "`x.length` of bytes and texts, `x.size` of a list"),
    "as": "`x.as<t>`",
    **dict.fromkeys(("at", "get", "charat", "elementat"), "`a[0]`"),
    **dict.fromkeys(("and", "or", "not", "xor"), "`a and b`, `a or b`, `not a`, or of bits `a & b`, `a | b`, `a ^ b`"),
}
# Integers: those whose names have their bits or bytes, and those that are words.
INTEGERS = re.compile(r"(?P<sign>u|s|i|uint|int|sint|u_int)_?(?P<bits>8|16|32|64)(?:_t)?_?(?P<order>le|be)?\Z")
FRONT_ORDER = re.compile(r"(?P<order>le|be)_?(?P<rest>(?:u|s|i|uint|int)\d{1,2}(?:_t)?)\Z")
WORDS: Dict[str, str] = {
    **dict.fromkeys(("byte", "uchar", "ubyte", "unsigned char", "uint8"), "u1"), **dict.fromkeys(("sbyte", "schar", "signed char"), "s1"),
    **dict.fromkeys(("word", "ushort", "unsigned short"), "u2"), "short": "s2", **dict.fromkeys(("dword", "uint", "unsigned int", "unsigned"), "u4"),
    **dict.fromkeys(("int", "signed int", "signed"), "s4"), **dict.fromkeys(("qword", "ulonglong", "unsigned long long", "uquad", "filetime"), "u8"),
        "long long": "s8", "quad": "s8", "time_t": "u4",
}
# Types that are no integers of one size.
OTHER_TYPES: Dict[str, str] = {
    **dict.fromkeys(("string", "text", "chars", "char"), "a text is `str`, with a `size`"),
    **dict.fromkeys(("cstring", "cstr", "asciiz", "stringz", "zstr", "strz0"), "a text up to a zero byte is `strz`"),
    **dict.fromkeys(("wstring", "wchar", "wchar_t", "utf16", "unicode"), "letters of two bytes aren't read: write `size` alone, for their bytes"),
    **dict.fromkeys(("bytes", "raw", "blob", "buffer", "byte_array", "bytearray", "data"), "bytes have no `type`: write `size` alone"),
    **dict.fromkeys(("bool", "boolean", "bit", "flag"), "one bit is `b1`, a truth value"),
    **dict.fromkeys(("float", "double", "float32", "float64", "f32", "f64"), "floats aren't read: write `u4` or `u8` and read its bits"),
    **dict.fromkeys(("integer", "long", "ulong", "unsigned long", "size_t"), "an integer is `u1`, `u2`, `u4`, `u8`, or `s1` to `s8` with a sign"),
}
# Formats of Python's `struct`: the order of bytes, a count, and what is read.
FORMAT = re.compile(r"([<>=!@|]?)(\d{0,6})([bBhHiIlLqQsx])\Z")
ORDERS, LETTERS = {"<": "le", ">": "be", "!": "be"}, {"b": 1, "h": 2, "i": 4, "l": 4, "q": 8}
# Functions, without large letters and signs between words.
FUNCTIONS: Dict[str, str] = {
    **dict.fromkeys(("eof", "feof", "iseof", "ateof"), "whether the stream is at its end is `_io.eof`"),
    **dict.fromkeys(("tell", "ftell", "pos", "offsetof"), "the present place is `_io.pos`"),
    **dict.fromkeys(("filesize", "fsize", "streamsize"), "how many bytes the stream has is `_io.size`"),
    **dict.fromkeys(("len", "strlen", "length", "count", "sizeof"), "write `x.length` of bytes and texts, `x.size` of a list"),
    **dict.fromkeys(("int", "atoi", "parseint", "strtol"), "the number that a text is, is `s.to_i`"),
    **dict.fromkeys(("str", "itoa", "tostring", "string"), "the text of an integer is `n.to_s`"),
    **dict.fromkeys(("strcmp", "strncmp", "memcmp", "equals"), "write `a == b`"),
    **dict.fromkeys(("substr", "substring", "strsub"), "write `s.substring(a, b)`"),
    **dict.fromkeys(("frombytes", "unpack", "structunpack"), "an integer is read by the type of an attribute, such as `u4be`"),
    "calcsize": "write the number of bytes", "ord": "write `x[0]` of bytes, or the number of a letter",
    "ceil": "`/` rounds down: `(a + 7) / 8` rounds up", "pow": "write a product, or `1 << n`",
}
READS = re.compile(r"(?:read|get|peek)(?:u?byte|u?short|u?int|u?long|string|bytes|u?int(?:8|16|32|64)|u?quad|float|double)?(?:at)?\Z")
NULLS = ("null", "nil", "none", "undefined", "nullptr")
# What has functions, by a point.
MODULES = ("int", "struct", "file", "stream", "reader", "f", "fp", "fh", "io", "ctx")


def of_function(name: str, written: str = "") -> Optional[Hint]:
    """What to say of a function that other languages have, as it is written."""
    same = plain(name)
    example = FUNCTIONS.get(same) or ("what is read elsewhere is an instance, with `pos` and a `type`" if READS.match(same) else "")
    return say("other function", name=written or f"{name}(..)", example=example) if example else None


def of_method(name: str) -> Optional[Hint]:
    """What to say of a method that other languages have."""
    other = OTHER_METHODS.get(plain(name))
    return say("other method", name=name, example=other) if other else None


def integer(name: str) -> str:
    """The integer that a type of another language is; the empty text where it is none."""
    front = FRONT_ORDER.match(name)
    rest = (front["rest"] if re.match(r"[us][1248]\Z", front["rest"]) else integer(front["rest"])) if front else ""
    if rest:
        return rest if rest[1] == "1" else rest + front["order"]
    found = INTEGERS.match(name)
    if found:
        size, order = int(found["bits"]) // 8, (found["order"] or "") if found["bits"] != "8" else ""
        return f"{'u' if found['sign'].startswith('u') else 's'}{size}{order}"
    return name.replace("i", "s") if re.match(r"i[124]\Z", name) else WORDS.get(name, "")


def of_type(name: str) -> Optional[Hint]:
    """What to say of a type that other languages have."""
    same = plain(name)
    partial = re.match(r"([us][248])_?(?:(l|el)|b|eb)\Z", name)
    if partial:
        return say("type as written", name=name, near=f"{partial[1]}{'le' if partial[2] else 'be'}")
    if same != name and BUILT_IN.match(same):
        return say("type as written", name=name, near=same)
    near = "" if BUILT_IN.match(name) else integer(name.lower())
    if near:
        return say("integer type" if re.search(r"\d\d|8", name) else "word type", name=name, bits=8 * int(near[1]), near=near)
    if re.match(r"[us]1(?:le|be)\Z", name):
        return say("one byte", name=name, near=name[:2])
    if re.match(r"(?:[usi]|u?int)_?\d+(?:_t)?(?:le|be)?\Z|b\d+(?:le|be)?\Z", name):
        return say("odd integer", name=name)
    return say("other type", name=name, example=OTHER_TYPES[name.lower()]) if name.lower() in OTHER_TYPES else of_format(name)


def of_format(text: str) -> Optional[Hint]:
    """What to say of a type that is a format of Python's `struct`."""
    found = FORMAT.match(text)
    if not found:
        return None
    order, count, letter = found.groups()
    if text in ("b", "s"):
        return None
    if letter in "sx":
        return say("struct bytes", name=text, count=count or 1)
    size = LETTERS[letter.lower()]
    near = f"{'s' if letter.islower() else 'u'}{size}{ORDERS.get(order, '') if size > 1 else ''}"
    return say("struct format", name=text, bits=8 * size, near=near)


def low_bits(name: str) -> int:
    """How many bits an integer without a sign has, as C names it; 0 where it is none."""
    near = name if re.match(r"u[1248](?:le|be)?\Z", name) else integer(name.lower())
    return 8 * int(near[1]) if near.startswith("u") else 0


def is_type(name: str) -> bool:
    """Whether a name is a type of this or of another language."""
    return bool(BUILT_IN.match(name) or integer(name.lower())) or name.lower() in OTHER_TYPES
