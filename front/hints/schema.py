"""The keys of a description: which mapping has which, and what is in them."""
from __future__ import annotations

from typing import Dict, FrozenSet, Tuple

# Of each kind of mapping: what it is called, and the keys that mean something in it.
FIELD = "type size size-eos contents encoding terminator consume include eos-error repeat repeat-expr repeat-until if enum valid"
NAMES = {
    "type": "a type", "meta": "`meta`", "parameter": "a parameter", "attribute": "an attribute", "instance": "an instance", "value": "an instance with `value`",
    "switch": "a switch", "valid": "`valid`", "entry": "an entry of an enum",
}
KEYS: Dict[str, Tuple[str, ...]] = {
    "type": ("meta", "params", "seq", "types", "instances", "enums"),
    "meta": ("id", "endian", "encoding", "bit-endian"),
    "parameter": ("id", "type", "enum"),
    "attribute": ("id", *FIELD.split()),
    "instance": ("pos", "io", "value", *FIELD.split()),
    "value": ("value", "if", "enum", "valid"),
    "switch": ("switch-on", "cases"),
    "valid": ("eq", "any-of", "min", "max", "expr"),
    "entry": ("id",),
}
# Keys that are accepted and ignored, besides `doc`, `doc-ref` and those that begin with `-`; and those that are left out (S8).
IGNORED: Dict[str, Tuple[str, ...]] = {"meta": ("title", "application", "file-extension", "license", "xref", "ks-version", "tags")}
LEFT_OUT: Dict[str, Tuple[str, ...]] = {
    "meta": ("imports", "ks-opaque-types"), "attribute": ("process", "pad-right"), "instance": ("process", "pad-right"), "value": ("process", "pad-right"),
    "valid": ("in-enum",),
}
# What can't be beside `value`, beside `contents`, and beside an integer.
AGAINST_VALUE = ("pos", "io", "type", "size", "repeat")
AGAINST_CONTENTS = ("type", "size", "size-eos", "terminator", "enum", "valid")
AGAINST_INTEGER = ("size", "size-eos", "terminator")
# The kinds of what is in a key of a mapping, and of the items of a list; `*` is each key.
BELOW = {
    ("type", "meta"): "meta", ("type", "params"): "params", ("type", "seq"): "seq", ("type", "types"): "types", ("type", "instances"): "instances",
    ("type", "enums"): "enums", ("types", "*"): "type", ("instances", "*"): "instance", ("enums", "*"): "enum", ("enum", "*"): "entry",
    ("attribute", "type"): "switch", ("instance", "type"): "switch", ("attribute", "valid"): "valid", ("instance", "valid"): "valid",
    ("attribute", "contents"): "bytes", ("instance", "contents"): "bytes", ("switch", "cases"): "cases", ("valid", "any-of"): "choices",
}
ITEMS = {"params": "parameter", "seq": "attribute"}
# The mappings whose keys are names or numbers.
FREE: FrozenSet[str] = frozenset({"types", "instances", "enums", "enum", "cases"})
# The keys whose values are expressions, by the kinds of mappings that have them.
EXPRESSIONS = {
    **{(one, key): key for one in ("attribute", "instance") for key in ("if", "size", "repeat-expr", "repeat-until", "valid")},
    ("instance", "pos"): "pos", ("instance", "io"): "io", ("instance", "value"): "value", ("switch", "switch-on"): "switch-on", ("valid", "eq"): "valid",
    ("valid", "min"): "valid", ("valid", "max"): "valid", ("valid", "expr"): "expr",
}
# Where an expression may name the present place of `seq`, and the number of an element.
PLACE_KEYS = frozenset({"if", "size", "repeat-expr", "repeat-until", "switch-on"})
INDEX_KEYS = frozenset({"size", "switch-on", "argument", "repeat-until", "valid", "expr"})


def is_ignored(role: str, key: str) -> bool:
    """Whether a key is accepted and ignored in a mapping whose keys are fixed."""
    return key.startswith("-") or key in ("doc", "doc-ref") or key in IGNORED.get(role, ())


def is_known(role: str, key: str) -> bool:
    """Whether a mapping has a key, read or left out."""
    return role in FREE or key in KEYS.get(role, ()) or key in LEFT_OUT.get(role, ()) or is_ignored(role, key) or role == "value" and key in AGAINST_VALUE
